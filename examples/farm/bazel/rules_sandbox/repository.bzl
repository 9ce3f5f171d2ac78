"""The program of a release by its SHA-256, and nothing else."""

def _sandbox_release(ctx):
    if bool(ctx.attr.checkout) == bool(ctx.attr.urls):
        fail("one of `checkout` and `urls` says where the release is")
    if ctx.attr.checkout:
        packed = ctx.attr.checkout + "/release/sandbox.gz"
    else:
        ctx.download(ctx.attr.urls, "sandbox.gz")
        packed = "sandbox.gz"
    made = ctx.execute(["sh", "-c", 'gzip -dc "$1" > sandbox && chmod 755 sandbox && sha256sum < sandbox', "sh", packed])
    if made.return_code:
        fail(packed + ": " + made.stderr)
    digest = made.stdout[:64]
    if digest != ctx.attr.sha256:
        fail("%s holds %s, and `sha256` says %s" % (packed, digest, ctx.attr.sha256))
    ctx.file("BUILD", 'exports_files(["sandbox"])\n')

sandbox_release = repository_rule(
    implementation = _sandbox_release,
    attrs = {
        "checkout": attr.string(doc = "the folder of a checkout of sandbox"),
        "urls": attr.string_list(doc = "or where its release/sandbox.gz is"),
        "sha256": attr.string(mandatory = True, doc = "of the program: release/sandbox.sha256 has it"),
    },
    doc = "Makes the program of a release the file //:sandbox of a repository.",
)

"""`sandbox.release(sha256 = .., checkout = .. or urls = ..)` for a MODULE.bazel, in the place of `sandbox_release` of a WORKSPACE."""

load(":repository.bzl", "sandbox_release")

def _sandbox(ctx):
    tags = [it for module in ctx.modules if module.is_root for it in module.tags.release]
    if len(tags) != 1:
        fail("the workspace's MODULE.bazel has to say one `sandbox.release(..)`")
    sandbox_release(name = "sandbox", checkout = tags[0].checkout, urls = tags[0].urls, sha256 = tags[0].sha256)

sandbox = module_extension(
    implementation = _sandbox,
    tag_classes = {"release": tag_class(attrs = {
        "checkout": attr.string(),
        "urls": attr.string_list(),
        "sha256": attr.string(mandatory = True),
    })},
)

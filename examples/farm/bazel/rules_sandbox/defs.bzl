"""`sandbox_step`: an action that is a guest of `sandbox`.

    sandbox_step(
        name = "sorted",
        module = ":sort.wasm",
        srcs = {":first.txt": "lines"},          # a file, or a folder that another step made: /in/lines
        trees = {":headers": "include"},         # many files, by their paths in their package: /in/include/...
        words = ["/in/lines", "/out/lines"],
        outs = ["lines"],                        # /out/lines becomes sorted/lines
        fuel = 100000000,
    )

The action's key has the program, the step's scripts, the module, each input by its content, the words and the limits: all that decides the
result. So it may be kept anywhere (--disk_cache, --remote_cache), and may be done anywhere (--remote_executor).
"""

_NUMBERS = ["fuel", "pages", "values", "moment", "seed", "room", "entries", "wall", "output", "memory"]

def _give(ctx, args, inputs, seen, path, file):
    if path in seen:
        fail("%s: /in/%s is given twice" % (ctx.label, path))
    seen[path] = True
    inputs.append(file)
    args.add("--in", path + "=" + file.path)     # the path: `add` takes no folder

def _sandbox_step(ctx):
    args = ctx.actions.args()
    args.use_param_file("@%s", use_always = True)
    args.set_param_file_format("shell")
    args.add("--letter", "é")                    # first: by it the step sees how this Bazel writes letters that aren't ASCII
    program = ctx.file.sandbox
    args.add("--sandbox", program)
    args.add("--links")                          # Bazel's folders are made of links to declared inputs
    inputs = [program, ctx.file.module] + ctx.files._step_modules
    seen = {}

    for target, path in ctx.attr.srcs.items():
        files = target.files.to_list()
        if len(files) != 1:
            fail("%s: %s is %d files; `trees` takes many" % (ctx.label, target.label, len(files)))
        _give(ctx, args, inputs, seen, path, files[0])
    for target, prefix in ctx.attr.trees.items():
        package = target.label.package + "/" if target.label.package else ""
        for file in target.files.to_list():
            path = file.short_path
            if not path.startswith(package):
                fail("%s: %s isn't below the package of %s" % (ctx.label, path, target.label))
            path = path[len(package):]
            _give(ctx, args, inputs, seen, path if prefix == "." else prefix + "/" + path, file)
    outputs = []
    for path in ctx.attr.outs:
        outputs.append(ctx.actions.declare_file(ctx.label.name + "/" + path))
        args.add("--out", path + "=" + outputs[-1].path)
    for path in ctx.attr.out_dirs:
        outputs.append(ctx.actions.declare_directory(ctx.label.name + "/" + path))
        args.add("--out-dir", path + "=" + outputs[-1].path)
    if ctx.attr.stdout:
        outputs.append(ctx.actions.declare_file(ctx.label.name + "/" + ctx.attr.stdout))
        args.add("--stdout", outputs[-1])
    if not outputs:
        fail("%s: no outs, out_dirs or stdout" % ctx.label)
    report = ctx.actions.declare_file(ctx.label.name + ".report")
    args.add("--report", report)
    if ctx.file.stdin:
        inputs.append(ctx.file.stdin)
        args.add("--stdin", ctx.file.stdin)
    args.add_all(ctx.attr.env, before_each = "--env")
    if ctx.attr.floats:
        args.add("--floats")
    for name in _NUMBERS:
        text = getattr(ctx.attr, name)
        if text:
            args.add("--" + name, text)
    args.add(ctx.file.module)
    args.add("--")
    args.add_all(ctx.attr.words)
    ctx.actions.run(
        executable = ctx.executable._step,
        arguments = [args],
        inputs = inputs,
        outputs = outputs + [report],
        mnemonic = "SandboxStep",
        progress_message = "Running %s in a sandbox" % ctx.label,
        env = {},
        # the step reads what its words name and nothing else, and the guest reads none of the machine: a second sandbox of links, one for
        # each input, only takes time (34 steps over 1,163 files: 37 s with it, 19 s without)
        execution_requirements = {"no-sandbox": "1"},
    )
    return [DefaultInfo(files = depset(outputs)), OutputGroupInfo(report = depset([report]))]

sandbox_step = rule(
    implementation = _sandbox_step,
    doc = "Runs a guest of `sandbox` on files and folders, and keeps what it leaves in /out.",
    attrs = dict({
        "module": attr.label(allow_single_file = [".wasm"], mandatory = True),
        "srcs": attr.label_keyed_string_dict(allow_files = True),
        "trees": attr.label_keyed_string_dict(allow_files = True),
        "stdin": attr.label(allow_single_file = True),
        "stdout": attr.string(),
        "outs": attr.string_list(),
        "out_dirs": attr.string_list(),
        "words": attr.string_list(),
        "env": attr.string_list(),
        "floats": attr.bool(doc = "the guest may have floats"),
        "sandbox": attr.label(default = "@sandbox//:sandbox", allow_single_file = True, cfg = "exec", doc = "the program: `sandbox_release` makes it"),
        "_step_modules": attr.label_list(default = ["@rules_sandbox//:sandbox_step.py", "@rules_sandbox//:step_volume.py"], allow_files = True),
        "_step": attr.label(default = "@rules_sandbox//:sandbox-step", allow_single_file = True, executable = True, cfg = "exec"),
    }, **{
        # as text: an attribute of Bazel has 32 bits, fuel has 64
        name: attr.string(doc = "a number")
        for name in _NUMBERS
    }),
)

def step(**attributes):
    """sandbox_step with numbers as numbers."""
    sandbox_step(**{name: str(value) if name in _NUMBERS else value for name, value in attributes.items()})

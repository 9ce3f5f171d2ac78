"""Real programs in C and Rust, timed beside wasmi and beside another build of `sandbox`: `bench/real FOLDER --times N`.

Each gets an input that is made here, on standard input, and has no files. Programs in C are those of `others.py`; those in Rust are
`bench/rust_guests`, over crates of Debian's packages, built by Debian's `rustc` and `cargo`. An engine's time is that of the processor,
best of N, in turn with the others. `load` is a process that ends before the guest's first step, `net` is the time without it.

With --floats those of `FLOATING` instead, whose work is with floats, as their compiler made them; wazero's interpreter is timed, too,
with its load, since it has no run that ends before the first step.

Beside the times stand x86 instructions (`counts.py`), net of load: those of `sandbox` for a unit, and how many times as many each other one
takes, over an eighth of the input. They hang on no machine and no load.
"""
import json
import math
import os
import random
import re
import resource
import shutil
import subprocess
import tempfile

from counts import Counts, Uncounted
from logs import Log, mean, version_of
from others import PROGRAMS, SQL

TOP = os.path.dirname(os.path.dirname(os.path.dirname(os.path.abspath(__file__))))
LEAST = 0.1  # seconds of a program, net of its load
FUEL, PAGES = str(2**63), "8192"
PACKAGES = "aho-corasick csv miniz-oxide num-bigint pulldown-cmark regex roxmltree serde-json sha2 similar yaml-rust".split()
KINDS = ("net", "whole", "load")
PART = 8  # instructions are counted over an eighth of the input, where one is made here: it takes minutes
COUNTED = ("sandbox", "wasmi", "older")  # a program in Go can't be counted
TITLES = {"net": "net of load", "whole": "with load", "load": "load alone"}
WORDS = "the quick brown foxes jump over 17 lazy dogs while reading 2024-11 reports and writing `code` about *many* things again".split()


def prose(count, seed=1):
    """So many lines of words, in paragraphs with a heading now and then."""
    chance, lines = random.Random(seed), []
    for k in range(count):
        if k % 12 == 0:
            lines += ["", f"## {k} " + " ".join(chance.choice(WORDS) for _ in range(4)), ""]
        lines.append(("- " if k % 12 > 8 else "") + " ".join(chance.choice(WORDS) for _ in range(3 + chance.randrange(12))))
    return "\n".join(lines) + "\n"


def objects(count):
    chance = random.Random(2)
    return [{"id": k, "name": prose(1, k).strip()[:40], "tags": [chance.choice(WORDS) for _ in range(5)], "at": {"x": chance.randrange(10**9), "ok": k % 3 == 0}} for k in range(count)]


def xml(count):
    rows = "".join(f'<row id="{k}" kind="{WORDS[k % 9]}"><name>{prose(1, k).strip()[:30].replace("&", "")}</name><n:v xmlns:n="urn:n">{k * 37 % 101}</n:v></row>\n' for k in range(count))
    return f'<?xml version="1.0"?>\n<all>{rows}</all>\n'


def yaml(count):
    return "".join(f"- name: {WORDS[k % 9]} {k}\n  values: [{k}, {k * k}, \"{WORDS[k % 7]}\"]\n  more:\n    text: >\n      {' '.join(prose(1, k).replace('#', '').split())[:60]}\n    ok: {'true' if k % 2 else 'false'}\n" for k in range(count))


def formula(variables, clauses):
    chance = random.Random(5)
    rows = [" ".join(str(chance.choice((1, -1)) * it) for it in chance.sample(range(1, variables + 1), 3)) + " 0" for _ in range(clauses)]
    return f"p cnf {variables} {clauses}\n" + "\n".join(rows) + "\n"


def defines(count):
    return "".join(f"#ifdef A{k % 3}\nint a{k};\n#elif defined(B) && {k} > 7\nint b{k};\n#else\nint c{k};\n#endif\n" for k in range(count))


def halves(count):
    old = prose(count, 3)
    chance = random.Random(4)
    new = "\n".join(it if chance.random() < 0.85 else it[::-1] for it in old.splitlines())
    return f"{old}\n====\n{new}\n"


def rows(count):
    chance = random.Random(6)
    return "name,count,key\n" + "".join(f"{chance.choice(WORDS[:9])},{chance.randrange(1000)},{chance.randrange(10**9):09}\n" for _ in range(count))


LUA = """
local function sieve(n) local s, c = {}, 0; for i = 2, n do if not s[i] then c = c + 1; for j = i * i, n, i do s[j] = true end end end; return c end
local t, x = {}, 1; for i = 1, 12000 do x = (x * 48271) % 2147483647; t[i] = string.format('%08x', x) end; table.sort(t)
print(sieve(60000), t[1], t[12000], #table.concat(t), (table.concat(t):gsub('[0-4]', '')):sub(1, 40))
"""
BC = "scale=220\n4*sqrt(2)\nfor (i = 1; i < 400; ++i) s += 1/i^3\ns\n7^2500 % 10^50\ndefine f(n) { if (n < 2) return (n); return (f(n-1) + f(n-2)); }\nf(16)\n2^3000 / 3^900\nquit\n"
DC = "300k 2v p 3 4000^ Z p [la1+dsalb*sblx700>xd]sy 1sb 0sa [la1+sa lala*lb+sb la2500>x]sx lxx lb p 7 1100 ^ 13 300 ^ ~ p q\n"
JAVASCRIPT = """
function fib(n) { return n < 2 ? n : fib(n - 1) + fib(n - 2); }
var words = {}, text = ""; for (var i = 0; i < 1500; ++i) text += "w" + (i * 7919 % 503) + " ";
text.split(" ").forEach(function (it) { words[it] = (words[it] || 0) + 1; });
print(fib(19), Object.keys(words).length, text.replace(/w1(.)/g, "<$1>").length, JSON.stringify(words).length);
"""


# (square roots apart, no function of a C library: the native program has another one)
FLOATING_LUA = """
local function bodies(n)
  local x, y, v, w = 1.0, 0.0, 0.0, 1.0
  for i = 1, n do local r = x * x + y * y; local d = 1 / (r * math.sqrt(r)); v = v - x * d * 1e-3; w = w - y * d * 1e-3; x = x + v * 1e-3; y = y + w * 1e-3 end
  return x, y
end
local function inside(n)
  local c = 0
  for i = 0, n do for j = 0, n do
    local a, b, x, y, k = 2.5 * i / n - 2, 2.0 * j / n - 1, 0.0, 0.0, 0
    while k < 40 and x * x + y * y < 4 do x, y, k = x * x - y * y + a, 2 * x * y + b, k + 1 end
    c = c + k
  end end
  return c
end
local function norm(n)
  local u, v = {}, {}
  for i = 1, n do u[i] = 1.0 end
  for k = 1, 4 do
    for i = 1, n do local s = 0.0; for j = 1, n do s = s + u[j] / ((i + j) * (i + j - 1) / 2 + i) end; v[i] = s end
    u, v = v, u
  end
  return u[1], u[n]
end
local x, y = bodies(60000)
print(string.format('%.17g %.17g %d %.17g %.17g', x, y, inside(60), norm(120)))
"""
FLOATING_AWK = """
{ for (i = 1; i <= NF; i++) { x = length($i) / 7 + i * 0.37; s += sqrt(x); t += x / (1 + x * x * x); if (x > m) m = x; n[int(x * 4)] += x / NF } }
END { for (k = 0; k < 40; k++) u += n[k] / (k + 1.5); printf "%.17g %.17g %.17g %.17g\\n", s, t, m, u }
"""
FLOATING_JAVASCRIPT = """
function bodies(n) {
  var x = 1, y = 0, v = 0, w = 1, i, r, d;
  for (i = 0; i < n; ++i) { r = x * x + y * y; d = 1 / (r * Math.sqrt(r)); v -= x * d * 1e-3; w -= y * d * 1e-3; x += v * 1e-3; y += w * 1e-3; }
  return x + " " + y;
}
function quadrature(n) { var s = 0, i, x; for (i = 0; i < n; ++i) { x = (i + 0.5) / n; s += (1 - x * (3.5 - x * x)) / (1 + x * x * Math.sqrt(x)); } return s / n; }
var list = [], k = 0.5, i; for (i = 0; i < 3000; ++i) { k = (k * 3.999 * (1 - k)); list.push(k); } list.sort(function (a, b) { return a - b; });
print(bodies(20000), quadrature(9000), list[0], list[1500], list[2999], JSON.stringify(list.slice(0, 40)).length);
"""
FLOATING_SQL = """
create table t(id integer primary key, x real, y real);
with recursive n(k) as (select 1 union all select k + 1 from n where k < 12000) insert into t select k, k / 7.0, (k * 7919 % 1009) * 0.37 from n;
select count(*), sum(x), avg(y), min(x * y), max(x / (y + 0.5)), total(x * x) from t;
select round(y), count(*), sum(x), avg(x - y) from t group by round(y) order by 3 desc limit 20;
update t set x = x * 1.0001 + y / 3.0; select printf('%.15g %.15g', sum(x), sum(y * y) / count(*)) from t where x > y;
with recursive i(a, b, k) as (select 0.3, 0.5, 0 union all select a * a - b * b + 0.28, 2 * a * b + 0.01, k + 1 from i where k < 9000) select printf('%.15g', sum(a)), max(k) from i;
"""
FLOATING_JQ = "[.[] | .at.x / 7e3 | {x: ., r: (sqrt | floor), l: (sqrt * 1.5 - 7)}] | [length, (map(.x) | add), (map(.l) | max, min), (group_by(.r % 37) | map(map(.x * .l) | add) | sort | .[:9])]"


class Timed:
    """A program that is timed: its name, which program of `others.py` (none for one in Rust), words, what makes its input or a part of it,
    and whether it keeps its floats."""

    def __init__(self, name, of, words, given, floats=False):
        self.name, self.of, self.words, self.given, self.floats = name, of, words, given, floats

    def input(self, part=1):
        made = self.given(part)
        return made if isinstance(made, bytes) else made.encode()


TIMED = [
    Timed("minigzip", "minigzip", ["-9"], lambda part: prose(4_000 // part)),
    Timed("bzip2", "bzip2", ["-z", "-c"], lambda part: prose(6_000 // part)),
    Timed("clzip", "clzip", ["-c", "-3"], lambda part: prose(2_000 // part)),
    Timed("brotli", "brotli", ["-c", "-q", "6"], lambda part: prose(9_000 // part)),
    Timed("lz4", "lz4", ["-c", "-9"], lambda part: prose(5_000 // part)),
    Timed("compress", "compress", ["-c"], lambda part: prose(32_000 // part)),
    Timed("cmark", "cmark", ["-t", "html"], lambda part: prose(12_000 // part)),
    Timed("par", "par", ["60", "j1"], lambda part: prose(1_500 // part)),
    Timed("awk", "awk", ["{ gsub(/[aeiou]/, \"<&>\"); n[$2]++; t += length($0) } END { for (w in n) s += n[w]; print NR, s, t }"], lambda part: prose(1_500 // part)),
    Timed("unifdef", "unifdef", ["-DA1", "-UA2"], lambda part: defines(4_000 // part)),
    Timed("json_reformat", "json_reformat", ["-m"], lambda part: json.dumps(objects(4_000 // part))),
    Timed("xmlwf", "xmlwf", ["-n"], lambda part: xml(4_000 // part)),
    Timed("lua", "lua", ["-"], lambda _: LUA),
    Timed("mujs", "mujs", [], lambda _: JAVASCRIPT),
    Timed("sqlite3", "sqlite3", ["-batch", "-vfs", "unix-none", ":memory:"], lambda _: SQL),
    Timed("bc", "bc", ["-q"], lambda _: BC),
    Timed("dc", "dc", ["-"], lambda _: DC),
    Timed("picosat", "picosat", [], lambda _: formula(150, 640)),
    Timed("basez", "basez", ["--base64"], lambda part: bytes(k * k >> 3 & 255 for k in range(3_000_000 // part))),
    Timed("markdown", None, [], lambda part: prose(12_000 // part)),
    Timed("json", None, [], lambda part: json.dumps(objects(5_000 // part))),
    Timed("xml", None, [], lambda part: xml(4_000 // part)),
    Timed("yaml", None, [], lambda part: yaml(1_200 // part)),
    Timed("expressions", None, [], lambda part: prose(1_200 // part)),
    Timed("numbers", None, [], lambda _: "4500\n"),
    Timed("deflate", None, [], lambda part: prose(2_500 // part)),
    Timed("digests", None, [], lambda part: prose(25_000 // part)),
    Timed("differences", None, [], lambda part: halves(3_000 // part)),
    Timed("table", None, [], lambda part: rows(20_000 // part)),
]
FLOATING = [
    Timed("lua", "lua", ["-"], lambda _: FLOATING_LUA, True),
    Timed("awk", "awk", [FLOATING_AWK], lambda part: prose(1_500 // part), True),
    Timed("mujs", "mujs", [], lambda _: FLOATING_JAVASCRIPT, True),
    Timed("sqlite3", "sqlite3", ["-batch", "-vfs", "unix-none", ":memory:"], lambda _: FLOATING_SQL, True),
    Timed("jq", "jq", ["-c", FLOATING_JQ], lambda part: json.dumps(objects(1_000 // part)), True),
    Timed("brotli", "brotli", ["-c", "-q", "11"], lambda part: prose(300 // part), True),
]


def crates(folder):
    """The crates of Debian's packages with what they stand on, as cargo reads a folder of them."""
    room = f"{folder}/crates"
    registry = f"{room}/unpacked/usr/share/cargo/registry"
    if os.path.isdir(registry):
        return registry
    os.makedirs(f"{room}/lists/partial", exist_ok=True)
    os.makedirs(f"{room}/cache/archives/partial", exist_ok=True)
    for name, text in (("sources", "deb [signed-by=/usr/share/keyrings/debian-archive-keyring.gpg] http://deb.debian.org/debian bookworm main\n"), ("status", "")):
        with open(f"{room}/{name}", "w") as it:
            it.write(text)
    places = (("Etc::sourcelist", f"{room}/sources"), ("Etc::sourceparts", "/dev/null"), ("State::lists", f"{room}/lists"), ("State::status", f"{room}/status"), ("Cache", f"{room}/cache"))
    apt = ["apt-get", "-q", "-y", "-o", "APT::Architecture=amd64", *[word for name, path in places for word in ("-o", f"Dir::{name}={path}")]]
    subprocess.run([*apt, "update"], capture_output=True, check=True)
    subprocess.run([*apt, "install", "--download-only", "--no-install-recommends", *[f"librust-{it}-dev" for it in PACKAGES]], capture_output=True, check=True)
    for name in sorted(os.listdir(f"{room}/cache/archives")):
        if name.startswith("librust-"):
            subprocess.run(["dpkg-deb", "-x", f"{room}/cache/archives/{name}", f"{room}/unpacked"], check=True)
    return registry


def built_rust(folder):
    """Builds the guests in Rust, for wasm and for this machine; gives the two folders."""
    room = f"{folder}/rust"
    shutil.copytree(f"{TOP}/bench/rust_guests", room, dirs_exist_ok=True)
    os.makedirs(f"{room}/.cargo", exist_ok=True)
    with open(f"{room}/.cargo/config.toml", "w") as it:
        it.write(f'[source.crates-io]\nreplace-with = "debian"\n[source.debian]\ndirectory = "{crates(folder)}"\n[target.wasm32-wasi]\nrustflags = ["-C", "target-cpu=mvp"]\n')
    environment = {**os.environ, "RUSTC": "/usr/bin/rustc", "CARGO_HOME": f"{room}/home"}
    for target in (["--target", "wasm32-wasi"], []):
        done = subprocess.run(["/usr/bin/cargo", "build", "--quiet", "--release", "--offline", "--bins", *target], cwd=room, env=environment, capture_output=True, text=True)
        if done.returncode:
            raise RuntimeError("cargo: " + " ".join([it for it in done.stderr.splitlines() if it.startswith("error")][:3] or [done.stderr[-300:]]))
    return f"{room}/target/wasm32-wasi/release", f"{room}/target/release"


def files(real, folder, it):
    """The module and the native program of a timed one; what the folder has is taken as it is."""
    module, native = f"{folder}/{it.of}{'.floats' if it.floats else ''}.wasm", f"{folder}/{it.of}.native"
    if it.of and os.path.exists(module) and os.path.exists(native):
        return module, native
    if it.of == "awk":  # its grammar goes through this one
        real.built(folder, "byacc", PROGRAMS["byacc"])
    if it.of:
        module, native, _ = real.built(folder, it.of, PROGRAMS[it.of], it.floats)
        return module, native
    wasm, native = built_rust(folder)
    module = f"{folder}/rust-{it.name}.wasm"
    subprocess.run([f"{TOP}/tools/soften", f"{wasm}/{it.name}.wasm", module], check=True)
    return module, f"{native}/{it.name}"


def processor_time():
    usage = resource.getrusage(resource.RUSAGE_CHILDREN)
    return usage.ru_utime + usage.ru_stime


class Run:
    """The commands of each engine for one program."""

    def __init__(self, engines, it, module, room, part=1):
        os.makedirs(room, exist_ok=True)
        self.given = f"{room}/input"
        with open(self.given, "wb") as file:
            file.write(it.input(part))
        with open(f"{room}/random", "wb") as file:
            file.write(bytes(4096))
        self.report, self.whole, self.load = f"{room}/report", {}, {}
        for name, program in engines.items():
            if name == "wasmi":
                self.whole[name], self.load[name] = [program, module, *it.words], [program, "--load", module]
            elif name == "wazero":
                self.whole[name] = [program, "run", "-interpreter", module, *it.words]
            else:
                begin = [program, "run", *["--floats"] * it.floats, "--pages", PAGES, "--random", f"{room}/random"]
                self.whole[name] = [*begin, "--fuel", FUEL, "--", module, *it.words]
                self.load[name] = [*begin, "--fuel", "0", "--", module, *it.words]

    def timed(self, words):
        """Status, output and seconds of the processor."""
        with open(self.given, "rb") as given:
            before = processor_time()
            done = subprocess.run(words, stdin=given, stdout=subprocess.PIPE, stderr=subprocess.DEVNULL)
            return done.returncode, done.stdout, processor_time() - before

    def units(self, program):
        words = self.whole["sandbox"]
        self.timed([program, "run", "--report", self.report, *words[2:]])
        with open(self.report) as file:
            return int(re.search(r"^units:(\d+)$", file.read(), re.M)[1])


def least(run, native, times):
    """The least seconds of each engine, whole and of the load; all have to answer as the native program."""
    whole = {name: math.inf for name in run.whole}
    load = dict.fromkeys(run.load, math.inf)
    wanted = run.timed(native)[:2]
    for _ in range(times):
        for name in whole:
            status, out, seconds = run.timed(run.whole[name])
            if (status, out) != wanted:
                raise RuntimeError(f"{name} ended with {status} and {len(out)} bytes in place of {wanted[0]} and {len(wanted[1])}")
            whole[name] = min(whole[name], seconds)
        for name in load:
            load[name] = min(load[name], *(run.timed(run.load[name])[2] for _ in range(3)))
    return whole, load


def told(name, ratios, seconds, units, costs):
    line = f"{name:14}{units / 1e6:9.1f} M units" + (f" {seconds:7.3f} s net" if seconds else "")
    for other, of in ratios.items():
        line += f"   {other}: " + ", ".join(f"{TITLES[kind]} {ratio:.2f}" for kind, ratio in of.items())
    if costs:
        line += f"   x86 a unit {costs['sandbox']:.2f}" + "".join(f", {it} {costs[it] / costs['sandbox']:.2f} times" for it in costs if it != "sandbox")
    return line + (f"   shorter than {LEAST} s" if seconds and seconds < LEAST else "")


def counted(given, engines, it, module, room):
    """The x86 instructions of each engine for a unit, without its load, over a part of the input."""
    run = Run(engines, it, module, room, PART)
    units = run.units(engines["sandbox"])
    found = given.kept.between({name: (run.whole[name], run.load[name]) for name in COUNTED if name in run.load}, run.given)
    return {name: it / units for name, it in found.items()}


def measured(given, engines, it, module, native):
    """A program's row: the others' time by ours, and x86 instructions a unit; prints its line."""
    with tempfile.TemporaryDirectory(dir="/dev/shm" if os.access("/dev/shm", os.W_OK) else None) as room:
        run = Run(engines, it, module, room)
        units, net, ratios = run.units(engines["sandbox"]), {}, {}
        if given.times:
            whole, load = least(run, [native, *it.words], given.times)
            net = {name: max(whole[name] - load[name], 1e-6) for name in load}
            times = {"net": net, "whole": whole, "load": load}
            ratios = {other: {kind: times[kind][other] / times[kind]["sandbox"] for kind in KINDS if other in times[kind]} for other in engines if other != "sandbox"}
        costs = counted(given, engines, it, module, f"{room}/part") if given.counts else {}
    print(told(it.name, ratios, net.get("sandbox"), units, costs), flush=True)
    return {"seconds": net.get("sandbox"), "units": units, "ratios": ratios, "x86": costs}


def engines_of(given):
    """What is timed, `sandbox` first: wasmi out of `bench/peers`, with --floats wazero, and the program of --beside; and the others' versions."""
    engines, versions = {"sandbox": given.program}, {}
    for name in ("wasmi", *["wazero"] * given.floats):
        done = subprocess.run([f"{TOP}/bench/peers", "--program", name, given.peers], stdout=subprocess.PIPE, text=True)
        if done.returncode:
            print(f"{name} isn't there: bench/peers says why")
        else:
            program, version = done.stdout.splitlines()
            engines[name] = f"{os.path.dirname(program)}/guest" if name == "wasmi" else program
            print(f"{name} {version}")
            versions[name] = version
    if given.beside:
        engines["older"] = os.path.abspath(given.beside)
        versions["older"] = version_of(engines["older"])
    return engines, versions


def means(rows, others):
    """Prints the geometric mean and the spread of each column."""
    for other in others:
        for kind in KINDS:
            spread(f"{other}, {TITLES[kind]}", [row["ratios"][other][kind] for row in rows if kind in row["ratios"].get(other, {})])
    spread("x86 instructions a unit", [row["x86"]["sandbox"] for row in rows if row["x86"]])
    for other in others:
        spread(f"x86 instructions of {other}, times as many", [row["x86"][other] / row["x86"]["sandbox"] for row in rows if other in row["x86"]])


def spread(title, values):
    if values:
        print(f"{title}: mean {mean(values):.2f}, from {min(values):.2f} to {max(values):.2f} over {len(values)} programs")


def rows_of(given, real):
    """Times the programs that are asked for; gives how many answer otherwise or aren't built."""
    (engines, versions), failed = engines_of(given), 0
    given.kept = Counts(given.counts)
    log = Log("float-programs" if given.floats else "programs", given.program, given.times, versions)
    print(f"sandbox {log.said['version']}; the others' time by ours, processor time, best of {given.times} in turn; {load_of_machine()}", flush=True)
    for it in FLOATING if given.floats else TIMED:
        if given.names and it.name not in given.names:
            continue
        try:
            module, native = files(real, given.folder, it)
            log.add(it.name, **measured(given, engines, it, module, native))
        except (RuntimeError, subprocess.CalledProcessError, OSError, Uncounted) as problem:
            print(f"{it.name:14} FAILED: {problem}"[:400], flush=True)
            failed += 1
    means(log.said["rows"].values(), list(engines)[1:])
    print(load_of_machine())
    if given.log:
        log.keep(given.log)
    return failed


def load_of_machine():
    return f"load {os.getloadavg()[0]:.1f} on {os.cpu_count()} processors"

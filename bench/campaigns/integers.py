"""Softened programs beside the same ones built without floats: Lua 5.1, whose numbers are all of one type, and awk.

The sources are changed by the lines of `sed` below, so that a number is a `long long`. The scripts compute with integers alone, so
both forms print the same.
"""
import os
import subprocess
import time

LUA_SED = r"""
s/^#define LUA_NUMBER_DOUBLE$//
s/^#define LUA_NUMBER\tdouble/#define LUA_NUMBER long long/
s/^#define LUAI_UACNUMBER\tdouble/#define LUAI_UACNUMBER long long/
s/^#define LUA_NUMBER_SCAN.*/#define LUA_NUMBER_SCAN "%lld"/
s/^#define LUA_NUMBER_FMT.*/#define LUA_NUMBER_FMT "%lld"/
s/^#define lua_str2number.*/#define lua_str2number(s,p) strtoll((s), (p), 10)/
s/^#define luai_nummod.*/#define luai_nummod(a,b) ((b) == 0 ? 0 : (a) % (b))/
s/^#define luai_numdiv.*/#define luai_numdiv(a,b) ((b) == 0 ? 0 : (a) \/ (b))/
s/^#define luai_numpow.*/#define luai_numpow(a,b) ((a) * (b))/
s/union \{ double u;/union { long long u;/
"""
AWK_SED = r"""
s/\b([0-9]+)\.0\b/\1/g
s/%\.30g/%lld/g
s/sscanf\(xbuf, "%x", \(unsigned int \*\) &n\)/n = strtol(xbuf, NULL, 16)/
"""
AWK_HEADER = """
#include <ctype.h>
#include <errno.h>
#include <limits.h>
#include <math.h>
#include <stdint.h>
#include <stdio.h>
#include <stdlib.h>
#include <string.h>
#include <time.h>
#include <wchar.h>
#undef isnan
#undef isinf
#undef signbit
#define double long long
#define modf(x, whole) (*(whole) = (x), 0)
#define atof(text) strtoll(text, NULL, 10)
#define strtod(text, end) strtoll(text, end, 10)
#define isnan(x) 0
#define isinf(x) 0
#define signbit(x) ((x) < 0)
#define sqrt(x) (x)
#define sin(x) (x)
#define cos(x) (x)
#define exp(x) (x)
#define log(x) (x)
#define atan2(x, y) (x)
#define pow(x, y) (x)
"""
LUA_SCRIPTS = {
    "sums": "local s = 0; for i = 1, 1000000 do s = (s + i * 7) % 1000003 end; print(s)",
    "calls": "local function fib(n) if n < 2 then return n end return fib(n - 1) + fib(n - 2) end; print(fib(24))",
    "sorting": "local t = {}; local x = 1; for i = 1, 20000 do x = (x * 4827) % 65537; t[i] = x end; table.sort(t);"
    " print(t[1], t[10000], t[20000])",
    "strings": "local n = 0; for i = 1, 20000 do n = n + #string.rep('ab', i % 20) + string.byte(tostring(i), 1) end; print(n)",
}
AWK_SCRIPTS = {
    "sums": "BEGIN { for (i = 1; i <= 300000; i++) s = (s + i * 7) % 1000003; print s }",
    "words": "{ for (i = 1; i <= NF; i++) n[$i]++ } END { for (w in n) if (n[w] > 40) t += n[w]; print NR, t }",
}


def lua(folder, real):
    """The two modules of Lua 5.1."""
    where = real.source(folder, "lua5.1")
    integers = f"{folder}/lua5.1-integers"
    with open(f"{where}/src/lua5.1-deb-multiarch.h", "w") as it:
        it.write('#define DEB_HOST_MULTIARCH "x"\n')
    copy(where + "/src", integers)
    sed(LUA_SED, integers, "luaconf.h")
    sed(r"s/\(double\)luaL_checknumber/luaL_checknumber/", integers, "lstrlib.c")
    sed(r"s/difftime\((\(time_t\)\(luaL_checknumber\(L, 1\)\)),/(lua_Number)(\1 -/", integers, "loslib.c")
    # the library's scanf has floats in any case
    sed(r"s/fscanf\(f, LUA_NUMBER_SCAN, &d\)/(d = 0)/", integers, "liolib.c")
    sed(r"/luaopen_math/d", integers, "linit.c")
    flags = ["-DLUA_ANSI", "-DLUAI_THROW(L,c)=__builtin_trap()", "-DLUAI_TRY(L,c,a)={ a }"]
    files = [it for it in sorted(os.listdir(integers)) if it.endswith(".c") and it not in ("luac.c", "print.c")]
    modules = f"{folder}/lua5.1-integers.wasm", f"{folder}/lua5.1-softened.wasm"
    real.compiled([*real.words(folder), *flags, *[it for it in files if it != "lmathlib.c"], *real.last(False), "-o", modules[0]], integers)
    real.compiled([*real.words(folder), *flags, *files, *real.last(True), "-o", modules[1]], f"{where}/src")
    return modules


def awk(folder, real):
    """The two modules of awk."""
    where = real.source(folder, "original-awk")
    real.PROGRAMS["awk"].prepare(where)
    integers = f"{folder}/awk-integers"
    copy(where, integers)
    files = real.PROGRAMS["awk"].files[0]
    for name in files:
        sed(AWK_SED, integers, name)
    with open(f"{integers}/integers.h", "w") as it:
        it.write(AWK_HEADER)
    modules = f"{folder}/awk-integers.wasm", f"{folder}/awk-softened.wasm"
    real.compiled([*real.words(folder), "-include", "integers.h", *files, *real.last(False), "-o", modules[0]], integers)
    real.compiled([*real.words(folder), *files, *real.last(True), "-o", modules[1]], where)
    return modules


def copy(where, to):
    subprocess.run(["rm", "-rf", to], check=True)
    subprocess.run(["cp", "-r", where, to], check=True)


def sed(lines, folder, name):
    subprocess.run(["sed", "-E", "-i", lines, name], cwd=folder, check=True)


def seconds_of(sandbox, module, words, given, fuel):
    begun = time.monotonic()
    done = subprocess.run([sandbox, "run", "--fuel", str(fuel), "--pages", "4096", "--", module, *words], input=given, capture_output=True)
    return done.returncode, done.stdout, time.monotonic() - begun, done.stderr


def measured(sandbox, module, words, given):
    """Output, seconds (the least of three runs), and units to half a percent."""
    runs = [seconds_of(sandbox, module, words, given, 10**12) for _ in range(3)]
    if runs[0][0]:
        raise RuntimeError(f"status {runs[0][0]}: {runs[0][3][-200:]!r}")
    low, high = 0, 10**6
    while seconds_of(sandbox, module, words, given, high)[0] == 121:
        low, high = high, high * 2
    while high - low > high // 200:
        middle = (low + high) // 2
        low, high = (middle, high) if seconds_of(sandbox, module, words, given, middle)[0] == 121 else (low, middle)
    return runs[0][1], min(it[2] for it in runs), high


def rows(given, real):
    """Prints a row for each script; gives how many differ."""
    wrong = 0
    for name, make, scripts, words, text in (
        ("lua5.1", lua, LUA_SCRIPTS, lambda it: ["-e", it], b""),
        ("awk", awk, AWK_SCRIPTS, lambda it: [it], real.TEXT),
    ):
        integers, softened = make(given.folder, real)
        subprocess.run([f"{real.TOP}/tools/soften", softened, softened], check=True)
        for script, program in scripts.items():
            one, other = (measured(given.program, module, words(program), text) for module in (integers, softened))
            wrong += one[0] != other[0]
            same = "same" if one[0] == other[0] else f"DIFFERS: {one[0][:60]!r} and {other[0][:60]!r}"
            units = f"{one[2] / 1e6:8.2f} and {other[2] / 1e6:8.2f} million units, {other[2] / one[2]:5.2f} times"
            seconds = f"integers {one[1]:6.2f} s, softened {other[1]:6.2f} s, {other[1] / one[1]:5.2f} times"
            print(f"{name:7} {script:9} {seconds}; {units}  {same}", flush=True)
    return wrong

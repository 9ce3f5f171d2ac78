"""The programs that `bench/real` builds: what of their sources, with which flags, and the cases that run.

A case is a name, words, input, files that are there (bytes, or the path of a file of the sources), and files that come of it.
"""
import os
import subprocess

TEXT = "".join(f"{k}: the quick brown fox jumps over {k * k % 97} lazy dogs, *again* and `again`\n\n" for k in range(900)).encode()
BYTES = bytes((k * k >> 3) % 256 for k in range(40_000))
LUA = {
    "sums": "local s=0; for i=1,200000 do s=s+1/i end; print(s, math.sqrt(2), math.pi, 1e300*1e10, -1.0//0, 7//2, 7.5%2, 2^0.5)",
    "sort": "local t={}; local x=1; for i=1,20000 do x=(x*48271)%2147483647; t[i]=x/7 end; table.sort(t); print(t[1], t[10000], t[20000])",
    "strings": "for i=1,2000 do local s=string.format('%d %5.2f %s %q', i, i/7, i%3==0, 'a\\n'); if i%500==0 then print(s) end end;"
    " print(('hello world'):gsub('o', '0'), #string.rep('x', 1000), tostring(1e15), 0x7fffffff + 0.0, 3 | 4, 10 // 0.3)",
    "nbody": "local x,v=1.0,0.0; for i=1,100000 do local a=-x/(x*x*math.abs(x)); v=v+a*1e-4; x=x+v*1e-4 end; print(string.format('%.17g %.17g', x, v))",
    "functions": "local function fib(n) if n<2 then return n end return fib(n-1)+fib(n-2) end; print(fib(24))",
    "maths": "for i=1,50 do print(math.sin(i), math.exp(i/10), math.log(i), math.floor(i*1.7), math.fmod(i,3.3), i*0.1) end",
}
SQL = """
create table t(id integer primary key, name text, amount real);
with recursive n(k) as (select 1 union all select k + 1 from n where k < 2000)
  insert into t select k, 'name ' || (k * 7919 % 1009), k / 7.0 from n;
create index by_name on t(name);
select count(*), sum(amount), avg(amount), min(name), max(name) from t;
select name, round(amount, 3) from t where name like 'name 10%' order by name, amount limit 12;
begin; update t set amount = amount * 1.5 where id % 3 = 0; delete from t where id % 5 = 0; commit;
select count(*), printf('%.9f', total(amount)) from t;
select group_concat(x, ' ') from (select substr(name, 1, 6) as x, count(*) from t group by 1 order by 2 desc, 1 limit 9);
pragma integrity_check;
"""
AWK = {
    "counts words": "{ for (i = 1; i <= NF; i++) n[$i]++ } END { for (w in n) if (n[w] > 40) t += n[w]; print NR, t }",
    "sums": "{ s += $1 * 1.5; if ($7 > m) m = $7 } END { printf \"%d %.6f %g\\n\", m, s / NR, sqrt(s) }",
    "replaces": "/fox/ { gsub(/[aeiou]/, \"<&>\"); if (NR % 97 == 0) print toupper(substr($0, 1, 60)), length($0), index($0, \"dogs\") }",
}
JAVASCRIPT = """
function fib(n) { return n < 2 ? n : fib(n - 1) + fib(n - 2); }
print(fib(17), Math.sqrt(2), 0.1 + 0.2, [3, 1, 2].sort().join(), JSON.stringify({ a: [1, 2.5, "x"], b: null }));
var s = 0; for (var i = 1; i < 20000; ++i) s += 1 / (i * i); print(s, "abcabc".replace(/b(.)/g, "<$1>"), (255).toString(16), new RegExp("^a+$").test("aaa"));
"""
SCHEME = """
(define (fib n) (if (< n 2) n (+ (fib (- n 1)) (fib (- n 2)))))
(display (fib 15)) (newline)
(define (count-to n) (do ((i 0 (+ i 1)) (s 0 (+ s (* i i)))) ((= i n) s)))
(display (count-to 1000)) (newline)
(display (map (lambda (x) (/ x 4.0)) '(1 2 3))) (newline)
(display (append '(a b) (reverse '(1 2 3)))) (newline)
(display (assq 'b '((a 1) (b 2)))) (newline)
(quit 0)
"""
TCL = """
proc fib {n} { if {$n < 2} { return $n }; expr {[fib [expr {$n - 1}]] + [fib [expr {$n - 2}]]} }
puts [fib 15]
set l {}; for {set i 0} {$i < 300} {incr i} { lappend l [expr {$i * 7919 % 1009}] }
puts [lrange [lsort -integer $l] 0 9]
puts [format "%5.3f %x %s" [expr {22 / 7.0}] 255 [string toupper hello]]
set d [dict create a 1 b 2]; dict set d c 3; puts [dict get $d c][dict size $d]
puts [regsub -all {o} "foo boo" 0]
puts [catch {error oops} it] ; puts $it
"""
JSON = ('{"numbers":[' + ",".join(str(k * 37 % 101) for k in range(600)) + '],"text":"a \\"word\\" \\u00e9","deep":' + "[" * 40 + "1.5e3" + "]" * 40 + ',"no":null}').encode()
XML = (
    '<?xml version="1.0"?>\n<!DOCTYPE a [<!ENTITY e "an <b>entity</b>"><!ATTLIST c d CDATA "default">]>\n<a xmlns:n="urn:n">'
    + "".join(f'<c k="{k}">&e; text &#233; {k}<n:f/></c>\n' for k in range(300))
    + "<![CDATA[<raw>]]></a>\n"
).encode()
C_SOURCE = b"""
struct list { struct list *next; int value; };
static int gcd(int a, int b) { return b ? gcd(b, a % b) : a; }
int sum(struct list *it) { int s = 0; for (; it; it = it->next) s += it->value; return s; }
double mean(double *a, int n) { double s = 0; for (int i = 0; i < n; i++) s += a[i]; return n ? s / n : 0.5; }
int main(int argc, char **argv) { struct list a = { 0, 3 }, b = { &a, 4 }; return gcd(sum(&b) * 6, argc * 9) + "abc"[1]; }
"""
CNF = "p cnf 60 200\n" + "".join(
    f"{(k * 7 % 60 + 1) * (1 if k % 3 else -1)} {(k * 11 % 60 + 1) * (1 if k % 5 else -1)} {(k * 17 % 60 + 1) * (1 if k % 2 else -1)} 0\n" for k in range(200)
)
PBM = b"P4\n400 300\n" + bytes((x * y >> 5) & 0xFF if (x // 7 + y // 9) % 3 else 0 for y in range(300) for x in range(50))
SOUND = b"".join(int(8000 * ((k * 37 % 400) / 200 - 1)).to_bytes(2, "little", signed=True) for k in range(16_000))
ASSEMBLER = "".join(f"l{k}: lda #{k % 256}\n sta $02{k % 256:02x},x\n bne l{k}\n jmp l{max(0, k - 20)}\n" for k in range(200)).encode()
Z80 = "".join(f"l{k}: ld a,{k % 256}\n ld (hl),a\n inc hl\n jp nz,l{max(0, k - 20)}\n push bc\n" for k in range(200)).encode()
DEFINES = "".join(f"#ifdef A{k % 3}\nint a{k};\n#elif defined(B) && {k} > 7\nint b{k};\n#else\nint c{k};\n#endif\n" for k in range(300)).encode()
BIG_NUMBERS = "scale=60\n4*sqrt(2)\n2^500\ndefine f(n) { if (n < 2) return (n); return (f(n-1) + f(n-2)); }\nf(14)\nfor (i = 1; i < 40; ++i) s += 1/i\ns\nobase=16\n2^200-1\nquit\n"
POSTFIX = "40k 2 v p 3 400 ^ p [la 1 + d sa 1000 >x] sx 0 sa lx x la p 16 o 2 128 ^ 1 - p 7 11 97 | p q\n"


class Program:
    """How one is built, and its cases."""

    def __init__(self, package, files, cases, flags=(), wasi_flags=(), is_float=False, prepare=None):
        self.package, self.files, self.cases, self.flags, self.wasi_flags = package, files, cases, flags, wasi_flags
        self.is_float, self.prepare = is_float, prepare


def case(name, words, given=b"", there=None, wanted=()):
    """A case of a program."""
    return name, words, given, there or {}, wanted


def all_but(*names):
    return lambda files: [it for it in files if os.path.basename(it) not in names]


def headers(texts):
    """Writes what the program's own build would write."""
    def write(folder):
        for name, text in texts.items():
            os.makedirs(os.path.dirname(f"{folder}/{name}"), exist_ok=True)
            with open(f"{folder}/{name}", "w") as it:
                it.write(text)

    return write


def shell(words):
    return lambda folder: subprocess.run(words, shell=True, check=True, cwd=folder, stdout=subprocess.DEVNULL, stderr=subprocess.DEVNULL)


def sqlite_amalgamation(folder):
    if not os.path.exists(f"{folder}/sqlite3.c"):
        shell("./configure --disable-tcl --disable-readline && make sqlite3.c shell.c")(folder)


def awk_grammar(folder):
    """byacc, which is among these programs, makes the parser where Debian's build takes bison."""
    yacc = f"{os.path.dirname(folder)}/byacc.native"
    if not os.path.exists(yacc):
        raise RuntimeError("it needs byacc, which comes before it")
    shell(f"{yacc} -d -o awkgram.tab.c awkgram.y && clang -w maketab.c -o maketab && ./maketab awkgram.tab.h > proctab.c")(folder)


def json_headers(folder):
    os.makedirs(f"{folder}/include/yajl", exist_ok=True)
    for name in ("common", "gen", "parse", "tree"):
        shell(f"cp src/api/yajl_{name}.h include/yajl/")(folder)
    headers({"include/yajl/yajl_version.h": "#define YAJL_MAJOR 2\n#define YAJL_MINOR 1\n#define YAJL_MICRO 0\n#define YAJL_VERSION 20100\nint yajl_version(void);\n"})(folder)


def jq_headers(folder):
    shell(r"""sed -e 's/\\/\\\\/g' -e 's/"/\\"/g' -e 's/^/"/' -e 's/$/\\n"/' src/builtin.jq >src/builtin.inc""")(folder)
    headers({"src/version.h": '#define JQ_VERSION "1.6"\n'})(folder)


SQLITE = "-DSQLITE_OMIT_LOAD_EXTENSION -DSQLITE_THREADSAFE=0 -DSQLITE_OMIT_POPEN -DSQLITE_NOHAVE_SYSTEM -DSQLITE_OMIT_WAL -DHAVE_READLINE=0".split()
SQLITE_WASI = ["-DSQLITE_OS_UNIX=1"]
CMARK = {
    "src/config.h": "#define HAVE_STDBOOL_H\n#include <stdbool.h>\n#define HAVE___BUILTIN_EXPECT\n#define CMARK_INLINE inline\n#define CMARK_ATTRIBUTE(x)\n",
    "src/cmark_version.h": '#define CMARK_VERSION 0\n#define CMARK_VERSION_STRING "0"\n',
    "src/cmark_export.h": "#define CMARK_EXPORT\n#define CMARK_NO_EXPORT\n",
}
EXPAT = "#define BYTEORDER 1234\n#define XML_CONTEXT_BYTES 1024\n#define XML_DTD 1\n#define XML_NS 1\n#define XML_POOR_ENTROPY 1\n#define PACKAGE_STRING \"x\"\n#define HAVE_UNISTD_H 1\n"
BC = "#define HAVE_ERRNO_H 1\n#define HAVE_LIMITS_H 1\n#define HAVE_STDARG_H 1\n#define HAVE_STDLIB_H 1\n#define HAVE_STRING_H 1\n#define HAVE_UNISTD_H 1\n#define STDC_HEADERS 1\n#define HAVE_STRTOL 1\n"
BC += '#define PACKAGE "x"\n#define VERSION "0"\n#define DC_VERSION "0"\n#define DC_COPYRIGHT ""\n#define BC_COPYRIGHT ""\n#define _POSIX_SOURCE 1\n#include <stdio.h>\nvoid checkferror_input(FILE *), checkferror_output(FILE *);\n'
BYACC = "#define HAVE_MKSTEMP 1\n#define HAVE_FCNTL_H 1\n#define HAVE_STDLIB_H 1\n#define HAVE_STDNORETURN_H 0\n#define HAVE_VSNPRINTF 1\n#define MAXTABLE INT_MAX\n#define YYBTYACC 1\n#define GCC_NORETURN\n#define GCC_UNUSED\n"
BYACC += "#define GCC_PRINTFLIKE(a,b)\n#define HAVE_GETOPT_H 1\n#define HAVE_GETOPT_HEADER 1\n#include <getopt.h>\n#include <limits.h>\n"

BASEZ = "".join(f'#define {it} "0"\n' for it in "APPNAME VERSION PKGNAME COPYRIGHT_YEARS COPYRIGHT_NAMES TRADEMARKS EMAIL WEB AUTHORS ORG".split())
BASEZ += "".join(f"#define {it} 0\n" for it in "TMCLAIM HAS_ORG B32 B64 UNHEX".split())

JQ = "acos acosh asin asinh atan atan2 atanh cbrt ceil copysign cos cosh erf exp exp10 exp2 expm1 fabs fdim floor fma fmax fmin fmod frexp"
JQ += " hypot j0 j1 ldexp lgamma log log10 log1p log2 logb modf nearbyint nextafter pow rint round scalbln sin sinh sqrt tan tanh tgamma"
JQ += " trunc y0 y1 lgamma_r timegm gmtime_r gmtime strftime strptime"
JQ_WORDS = (
    '[range(1; 120) | . * 0.37 | [sin, cos, tan, atan, exp, log, log2, log10, sqrt, cbrt, pow(.; 1.7), exp2, tanh, floor, fabs, lgamma]] | .[], (map(add) | add)'
)
# what is compared with a native program of the same C library alone: its functions round as the guest's do
FLOATS = {
    "lua": "for i=1,400 do local x=i*0.37; print(string.format('%.17g %.17g %.17g %.17g %.17g %.17g %a', math.sin(x), math.cos(x), math.tan(x),"
    " math.exp(x/9), math.log(x), x^1.7, math.sqrt(x))) print(math.fmod(x, 0.7), math.log(x, 10), math.atan(x, 2), math.asin(x/200), x//0.3, x%0.3) end"
    " print(1/0, -1/0, math.mininteger + 0.0, 2^53 + 1, 1e308*10, 5e-324, 5e-324/2, tonumber('0x1.8p-1074'), tonumber('1e-400'))",
    "awk": 'BEGIN { for (i = 1; i < 300; i++) { x = i * 0.37; printf "%.17g %.17g %.17g %.17g %.17g %.17g %d %e\\n", sin(x), cos(x), atan2(x, 3), exp(x / 9),'
    ' log(x), sqrt(x), int(x), x ^ 1.7 } }',
    "sqlite3": "with recursive n(k) as (select 1 union all select k + 1 from n where k < 500) select k / 7.0, k * 0.37e-5, round(k / 3.0, 4), cast(k as real) * 1e300,"
    " printf('%.17g %e', k / 11.0, k * 1e-310), cast(k * 0.7 as integer), k % 2.5 from n; select 1e308 * 10, -1e308 * 10, 0.1 + 0.2, 9007199254740993.0, '1e-400' + 0;",
}

PROGRAMS = {
    "lua": Program(
        "lua5.4",
        (["src"], all_but("luac.c")),
        [
            *(case(name, ["-e", text]) for name, text in LUA.items()),
            case("a script from input", ["-"], given=LUA["sums"].encode()),
        ],
        ["-DLUA_COMPAT_5_3"],
        is_float=True,
        prepare=headers({"src/lua5.4-deb-multiarch.h": '#define DEB_HOST_MULTIARCH "x"\n'}),
    ),
    "minigzip": Program(
        "zlib",
        (["", "test/minigzip.c"], None),
        [
            case("packs and unpacks", ["it"], there={"it": TEXT}, wanted=["it.gz"]),
            case("to output", ["-c", "it"], there={"it": TEXT * 4}),
            case("of input", ["-9"], given=TEXT),
        ],
        ["-DHAVE_UNISTD_H", "-I."],
    ),
    "bzip2": Program(
        "bzip2",
        (["blocksort.c", "huffman.c", "crctable.c", "randtable.c", "compress.c", "decompress.c", "bzlib.c", "bzip2.c"], None),
        [
            case("packs", ["-k", "it"], there={"it": TEXT}, wanted=["it.bz2"]),
            case("best", ["-9", "it"], there={"it": TEXT * 3}, wanted=["it.bz2"]),
        ],
        ["-DBZ_UNIX=1"],
        is_float=True,
    ),
    "zopfli": Program(
        "zopfli",
        (["src/zopfli"], None),
        [
            case("gzip", ["-c", "--i3", "it"], there={"it": TEXT[:6000]}),
            case("zlib", ["-c", "--zlib", "--i1", "it"], there={"it": TEXT[:9000]}),
        ],
        is_float=True,
    ),
    "cmark": Program(
        "cmark",
        (["src"], None),
        [
            *(case(kind, ["-t", kind], given=TEXT[:40_000]) for kind in ("html", "xml", "man", "commonmark", "latex")),
        ],
        ["-Isrc"],
        prepare=headers(CMARK),
    ),
    "lz4": Program(
        "lz4",
        (["lib/lz4.c", "lib/lz4hc.c", "lib/lz4frame.c", "lib/xxhash.c", "programs/lz4cli.c", "programs/lz4io.c", "programs/bench.c", "programs/datagen.c"], None),
        [
            case("of input", ["-c"], given=TEXT),
            case("best", ["-9", "-c"], given=TEXT * 2),
        ],
        ["-Ilib", "-Iprograms", "-DXXH_NAMESPACE=LZ4_"],
        is_float=True,
    ),
    "xxhsum": Program(
        "xxhash",
        (["xxhash.c", "cli"], None),
        [
            *(case(f"-H{k}", [f"-H{k}", "it"], there={"it": TEXT * 9}) for k in range(4)),
        ],
        is_float=True,
    ),
    "sqlite3": Program(
        "sqlite3",
        (["sqlite3.c", "shell.c"], None),
        [
            case("in memory", ["-batch", "-vfs", "unix-none", ":memory:"], given=SQL.encode()),
            case("in a file", ["-batch", "-vfs", "unix-none", "it.db"], given=b"pragma journal_mode=persist;" + SQL.encode(), wanted=["it.db"]),
        ],
        SQLITE,
        SQLITE_WASI,
        is_float=True,
        prepare=sqlite_amalgamation,
    ),
    "lemon": Program(
        "sqlite3",
        (["tool/lemon.c"], None),
        [
            case("SQL's grammar", ["-q", "-Tlempar.c", "it.y"], there={"it.y": "src/parse.y", "lempar.c": "tool/lempar.c"}, wanted=["it.c", "it.h"]),
        ],
        is_float=True,
    ),
    "byacc": Program(
        "byacc",
        ("closure.c error.c graph.c lalr.c lr0.c main.c mkpar.c mstring.c output.c reader.c symtab.c verbose.c warshall.c yaccpar.c".split(), None),
        [
            *(case(name, ["-d", "-v", "-o", "it.c", "it.y"], there={"it.y": f"test/{name}.y"}, wanted=["it.c", "it.h"]) for name in ("btyacc_calc1", "quote_calc", "grammar")),
        ],
        ["-I.", "-DHAVE_CONFIG_H"],
        prepare=headers({"config.h": BYACC}),
    ),
    "awk": Program(
        "original-awk",
        (["b.c", "lex.c", "lib.c", "main.c", "parse.c", "run.c", "tran.c", "awkgram.tab.c", "proctab.c"], None),
        [
            *(case(name, [text], given=TEXT) for name, text in AWK.items()),
            case("a program in a file", ["-f", "it.awk", "it"], there={"it.awk": AWK["sums"].encode(), "it": TEXT}),
        ],
        is_float=True,
        prepare=awk_grammar,
    ),
    "jimsh": Program(
        "jimtcl",
        (["autosetup/jimsh0.c"], None),
        [
            case("a script", ["it.tcl"], there={"it.tcl": TCL.encode()}),
        ],
        is_float=True,
    ),
    "figlet": Program(
        "figlet",
        (["figlet.c", "zipio.c", "crc.c", "inflate.c", "utf8.c"], None),
        [
            *(case(font, ["-f", font, "-w", "100", "Sand box"], there={f"{font}.flf": f"fonts/{font}.flf"}) for font in ("standard", "slant", "banner")),
        ],
        ["-DTLF_FONTS", '-DDEFAULTFONTDIR="."', '-DDEFAULTFONTFILE="standard.flf"'],
        is_float=True,
    ),
    "xmlwf": Program(
        "expat",
        ([f"expat/lib/{it}.c" for it in ("xmlparse", "xmlrole", "xmltok")] + [f"expat/xmlwf/{it}.c" for it in ("xmlwf", "xmlfile", "codepage", "readfilemap")], None),
        [
            case("well formed", ["it.xml"], there={"it.xml": XML}),
            case("with namespaces", ["-n", "it.xml"], there={"it.xml": XML}),
            case("broken", ["it.xml"], there={"it.xml": XML[:-9]}),
        ],
        ["-Iexpat/lib", "-Iexpat", "-DHAVE_EXPAT_CONFIG_H"],
        is_float=True,
        prepare=headers({"expat/expat_config.h": EXPAT}),
    ),
    "mujs": Program(
        "mujs",
        (["one.c", "main.c"], None),
        [
            case("a script", ["it.js"], there={"it.js": JAVASCRIPT.encode()}),
        ],
        is_float=True,
    ),
    "tinyscheme": Program(
        "tinyscheme",
        (["scheme.c"], None),
        [
            case("a script", ["it.scm"], there={"it.scm": SCHEME.encode(), "init.scm": "init.scm"}),
        ],
        ["-DSTANDALONE=1", "-DUSE_DL=0", "-DUSE_STRLWR=1", '-DInitFile="init.scm"'],
        is_float=True,
    ),
    "clzip": Program(
        "clzip",
        ("carg_parser.c decoder.c encoder.c encoder_base.c fast_encoder.c list.c lzip_index.c main.c".split(), None),
        [
            case("packs", ["-k", "it"], there={"it": TEXT}, wanted=["it.lz"]),
            case("fast", ["-0", "-k", "it"], there={"it": TEXT * 3}, wanted=["it.lz"]),
        ],
        ['-DPROGVERSION="0"'],
        is_float=True,
    ),
    "brotli": Program(
        "brotli",
        (["c/common", "c/dec", "c/enc", "c/tools"], None),
        [
            case("packs", ["-q", "9", "-k", "it"], there={"it": TEXT}, wanted=["it.br"]),
            case("best", ["-q", "11", "-k", "it"], there={"it": TEXT[:9000]}, wanted=["it.br"]),
        ],
        ["-Ic/include"],
        is_float=True,
    ),
    "compress": Program(
        "ncompress",
        (["compress42.c"], None),
        [
            case("packs", ["-f", "it"], there={"it": TEXT}, wanted=["it.Z"]),
            case("of input", ["-c"], given=TEXT),
        ],
        ["-DDIRENT=1", "-DUTIME_H=1", "-DUSERMEM=800000", '-DCOMPILE_DATE="0"', "-DBYTEORDER=4321", "-DNOALLIGN=0"],
    ),
    "dc": Program(
        "bc",
        (["dc", "lib/number.c"], None),
        [
            case("big numbers", ["-"], given=POSTFIX.encode()),
        ],
        ["-I.", "-Ih", "-Idc", "-DHAVE_CONFIG_H"],
        prepare=headers({"config.h": BC}),
    ),
    "bc": Program(
        "bc",
        (["bc", "lib/number.c", "lib/getopt.c", "lib/getopt1.c"], all_but("sbc.c", "libmath.c")),
        [
            case("big numbers", ["-q"], given=BIG_NUMBERS.encode()),
        ],
        ["-I.", "-Ih", "-Ibc", "-DHAVE_CONFIG_H"],
        prepare=headers({"config.h": BC, "bc/libmath.h": '{ 0 }\n'}),
    ),
    "tcc": Program(
        "tcc",
        (["tcc.c"], None),
        [
            case("compiles", ["-nostdinc", "-c", "it.c", "-o", "it.o"], there={"it.c": C_SOURCE}, wanted=["it.o"]),
            case("preprocesses", ["-nostdinc", "-E", "it.c"], there={"it.c": b"#define A(x) x##1 + #x\nA(b) __LINE__\n" * 200}),
        ],
        ["-DONE_SOURCE=1", "-DTCC_TARGET_X86_64", "-DCONFIG_TCC_STATIC=1", "-DCONFIG_TCC_SEMLOCK=0", "-I."],
        is_float=True,
        prepare=headers({"config.h": '#define TCC_VERSION "0"\n#define CONFIG_TCCDIR "/"\n'}),
    ),
    "unifdef": Program(
        "unifdef",
        (["unifdef.c"], None),
        [
            case("some", ["-DA1", "-UA2", "it.c"], there={"it.c": DEFINES}),
            case("all", ["-DA1", "-DA2", "-UB", "-UA0"], given=DEFINES),
        ],
        ["-I."],
    ),
    "picosat": Program(
        "picosat",
        (["picosat.c", "app.c", "main.c", "version.c"], None),
        [
            case("a formula", ["it.cnf"], there={"it.cnf": CNF.encode()}),
        ],
        ["-DNGETRUSAGE", "-DNDEBUG"],
        is_float=True,
        prepare=headers({"config.h": '#define PICOSAT_CC "0"\n#define PICOSAT_CFLAGS "0"\n#define PICOSAT_VERSION "0"\n'}),
    ),
    "par": Program(
        "par",
        (["buffer.c", "charset.c", "errmsg.c", "par.c", "reformat.c"], None),
        [
            case("lines of 50", ["50"], given=TEXT[:20_000]),
            case("justified", ["60", "j1"], given=TEXT[:20_000]),
        ],
    ),
    "toast": Program(
        "libgsm",
        (["src"], all_but("gsm_print.c")),
        [
            case("packs", ["-l", "-p", "-c", "it"], there={"it": SOUND}),
        ],
        ["-Iinc", "-DSASR", "-DWAV49", "-DNeedFunctionPrototypes=1", "-DHAS_UNISTD_H", "-DHAS_FCNTL_H", "-DHAS_STDLIB_H", "-DHAS_LIMITS_H"],
    ),
    "pbmtojbg": Program(
        "jbigkit",
        (["libjbig/jbig.c", "libjbig/jbig_ar.c", "pbmtools/pbmtojbg.c"], None),
        [
            case("a picture", ["it.pbm", "it.jbg"], there={"it.pbm": PBM}, wanted=["it.jbg"]),
            case("in one layer", ["-q", "it.pbm", "it.jbg"], there={"it.pbm": PBM}, wanted=["it.jbg"]),
        ],
        ["-Ilibjbig"],
        is_float=True,
    ),
    "xa": Program(
        "xa",
        (["src"], None),
        [
            case("assembles", ["-o", "it.o65", "it.a65"], there={"it.a65": ASSEMBLER}, wanted=["it.o65"]),
        ],
        ["-Isrc"],
        is_float=True,
    ),
    "z80asm": Program(
        "z80asm",
        (["z80asm.c", "expressions.c"], None),
        [
            case("assembles", ["-o", "it.bin", "it.asm"], there={"it.asm": Z80}, wanted=["it.bin"]),
        ],
        ["-Ignulib", '-DVERSION="0"'],
    ),
    "json_reformat": Program(
        "yajl",
        (["src", "reformatter"], None),
        [
            case("lays out", [], given=JSON),
            case("makes small", ["-m"], given=JSON),
            case("refuses", [], given=JSON[:-20]),
        ],
        ["-Iinclude", "-Isrc/api", "-Isrc"],
        is_float=True,
        prepare=json_headers,
    ),
    "basez": Program(
        "basez",
        (["basez.c", "base16.c", "base32.c", "base64.c"], None),
        [
            *(case(name, [f"--{name}", "it"], there={"it": BYTES}) for name in ("base64", "base32hex", "hex")),
        ],
        ["-DHAVE_CONFIG_H", "-I."],
        prepare=headers({"config.h": BASEZ}),
    ),
    "jq": Program(
        "jq",
        (["src"], all_but("inject_errors.c")),
        [
            case("picks", ["-c", ".numbers[:9], .text, (.numbers | map(. * 2.5) | add), (.deep | flatten)"], given=JSON),
            case("sorts", ["-c", "[.numbers[] | {n: ., half: (. / 2)}] | group_by(.n % 7) | map(length, .[0])"], given=JSON),
            case("texts", ["-r", "tojson | [splits(\",\")?] | length, (\"a-b\" | ascii_upcase, ltrimstr(\"a\"), @base64)"], given=JSON),
        ],
        ["-I.", "-D_GNU_SOURCE", "-DIEEE_8087", "-DHAVE_MEMMEM", "-DHAVE_ALLOCA_H", "-DHAVE_MKSTEMP", *[f"-DHAVE_{it.upper()}" for it in JQ.split()]],
        ["-Drealpath(path,room)=NULL"],
        is_float=True,
        prepare=jq_headers,
    ),
}
# with `--musl`
FLOATING = {
    "lua": [case("floats", ["-e", FLOATS["lua"]])],
    "awk": [case("floats", [FLOATS["awk"]])],
    "sqlite3": [case("floats", ["-batch", "-vfs", "unix-none", ":memory:"], given=FLOATS["sqlite3"].encode())],
    "jq": [case("floats", ["-n", "-c", JQ_WORDS])],
}

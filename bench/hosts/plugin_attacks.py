"""Plugins that ask for what hurts, and hosts that do what they may not, from Python: bench/embed calls it.

    plugin_attacks.py FOLDER of sandbox.py [--quick]

Modules are made by tools/wasm_binary.py: one that asks without end, that grows while it is asked, that traps as it is opened, whose exports
have names with NUL or of 60,000 bytes, and that imports many functions.
"""
import os
import sys
import time

sys.path[:0] = [sys.argv[1], os.path.join(os.path.dirname(os.path.abspath(__file__)), "..", "..", "tools")]
import sandbox  # noqa: E402
import sandbox_plugin as plugins  # noqa: E402
from wasm_binary import MAGIC, s, section, sized, u, vector  # noqa: E402

F = (b"env", b"f")
wrong = []


def tell(is_wanted, what):
    if not is_wanted:
        wrong.append(what)


def raised(kind, call, *arguments, **more):
    try:
        call(*arguments, **more)
    except kind as it:
        return it
    return None


def module(functions, imports=(F,), pages=1):
    """Functions [] -> [] of these names and codes; the imports, too, are [] -> []."""
    def named(text):
        return u(len(text)) + text

    types = vector([b"\x60" + vector([]) + vector([])])
    brought = vector([named(one) + named(two) + b"\0" + u(0) for one, two in imports])
    exported = vector([named(name) + b"\0" + u(len(imports) + n) for n, name in enumerate(functions)])
    bodies = vector([sized(vector([]) + code + b"\x0b") for code in functions.values()])
    parts = [(1, types), (2, brought), (3, vector([u(0)] * len(functions))), (5, vector([b"\0" + u(pages)])), (7, exported), (10, bodies)]
    return MAGIC + b"".join(section(kind, it) for kind, it in parts)


ASK = b"\x10" + u(0)
WITHOUT_END = b"\x03\x40" + ASK + b"\x0c\0\x0b"
TRAP = b"\0"
GROW = b"\x41" + s(1) + b"\x40\0\x1a"
RETURN = b""


def opened(given, answer=lambda caller: None, **more):
    return plugins.Plugin(given, pages=16).instance({("env", "f"): answer}, **more)


def asks_without_end():
    asked = []
    with opened(module({b"run": WITHOUT_END}), lambda caller: asked.append(1)) as it:
        ended = raised(plugins.Ended, it.call, "run", fuel=10_000)
        # each round is `loop`, which the branch leads to, a call and the branch
        tell(ended and ended.told.kind == sandbox.SPENT and it.used == 10_000, f"a guest that asks without end ends by its units {it.used}")
        tell(len(asked) == 3_333, f"it was answered {len(asked)} times")
        tell(raised(plugins.Ended, it.call, "run", fuel=1) and it.used == 10_001, "and can be called again")


def grows_while_asked():
    sizes = []
    with opened(module({b"run": GROW + ASK + GROW + ASK}), lambda caller: sizes.append((caller.memory_size(), caller.read(caller.memory_size() - 4, 4)))) as it:
        it.call("run")
        tell(sizes == [(131072, bytes(4)), (196608, bytes(4))], f"memory that grows between two asks {sizes}")
        tell(raised(sandbox.Refused, it.read, 196605, 4).number == 110, "and nothing past its end")


def reads_what_comes():
    """`read` of one byte after another from descriptor 0, and of the place behind: by wasi's fd_read, whose numbers are handed on."""
    def number(value):
        return value.to_bytes(4, "little")

    def read(instance, length):
        instance.write(16, number(1024) + number(length))
        return instance.call("read", 0, 16, 1, 512), int.from_bytes(instance.read(512, 4), "little")

    wasi, four = b"wasi_snapshot_preview1", b"\x60" + vector([b"\x7f"] * 4) + vector([b"\x7f"])
    body = sized(vector([]) + b"".join(b"\x20" + u(n) for n in range(4)) + b"\x10\0\x0b")
    brought = u(len(wasi)) + wasi + u(7) + b"fd_read" + b"\0\0"
    parts = [(1, vector([four])), (2, vector([brought])), (3, vector([u(0)])), (5, vector([b"\0\1"])), (7, vector([u(4) + b"read" + b"\0\1"])), (10, vector([body]))]
    guest = MAGIC + b"".join(section(kind, it) for kind, it in parts)
    asked, pieces = [], [b"ab", b"c", b"", b"never"]

    def more(wanted):
        asked.append(wanted)
        return pieces.pop(0)

    with plugins.Plugin(guest, pages=1, fed=True).instance(feed=more, input=b"x") as it:
        tell(read(it, 1) == (0, 1) and not asked, "what is there is read at once")
        tell(read(it, 3) == (0, 3) and it.read(1024, 3) == b"abc" and asked == [3, 3], f"a read waits for all it asks for {asked}")
        tell(read(it, 7) == (0, 0) and asked == [3, 3, 7], "and at the end for nothing")
        tell(read(it, 7) == (0, 0) and len(asked) == 3, "the end stays")
        tell(raised(sandbox.Refused, it.feed, b"d").number == plugins.ENDED, "nothing comes behind the end")
        it.end_input()

    def angry(wanted):
        raise LookupError(f"not {wanted}")

    with plugins.Plugin(guest, pages=1, fed=True).instance(feed=angry) as it:
        tell(str(raised(LookupError, read, it, 5)) == "not 5", "what `feed` raises goes on")
        it.feed(b"12345678")
        tell(read(it, 5) == (0, 5), "and the instance can be called again")
        it.write(16, number(65535) + number(9))
        tell(it.call("read", 0, 16, 1, 512) != 0 and it.call("read", 9, 16, 1, 512) != 0, "a read that a check refuses doesn't wait")
    with plugins.Plugin(guest, pages=1, fed=True).instance() as it:
        ended = raised(plugins.Ended, read, it, 5)
        tell(ended and (ended.told.kind, ended.told.code) == (plugins.STARVED, 5), "without `feed` it ends a call")

    def busy(wanted):
        tell(raised(plugins.Busy, it.call, "read", 0, 16, 1, 512), "a call from `feed` is Busy")
        return b""

    with plugins.Plugin(guest, pages=1, fed=True).instance(feed=busy) as it:
        tell(read(it, 5) == (0, 0), "an input of nothing")
    with plugins.Plugin(guest, pages=1).instance(feed=angry, input=b"xyz") as it:
        tell(read(it, 9) == (0, 3) and raised(sandbox.Refused, it.feed, b"d").number == plugins.ENDED, "of a plugin that isn't fed all is there")


def traps_at_once():
    ended = raised(plugins.Ended, opened, module({b"_initialize": TRAP, b"run": RETURN}))
    tell(ended and ended.told.kind == sandbox.TRAPPED, "a trap in _initialize is told")
    instance = plugins.Instance.__new__(plugins.Instance)
    tell(raised(plugins.Ended, instance.__init__, plugins.Plugin(module({b"_initialize": TRAP, b"run": RETURN})), {}), "an opening that traps")
    for call in (lambda: instance.call("run"), lambda: instance.write(0, b"a")):
        it = raised(sandbox.Refused, call)
        tell(it and it.number == 107, "and leaves an instance that is over")


def has_strange_names():
    names = {b"a\0b": RETURN, b"": RETURN, b"n" * 60_000: RETURN, "é ".encode() * 3: RETURN}
    given = plugins.Plugin(module(names))
    tell([it.encode() for it in given.exports()] == list(names), "names are told as they are")
    with given.instance({}) as it:
        for name in names:
            it.call(name.decode())
        tell(raised(sandbox.Refused, it.call, "a").number == 108, "a name that only begins alike is none")


def imports_many(count):
    begun = time.process_time()
    given = plugins.Plugin(module({b"run": ASK}, imports=[(b"env", b"f%d" % n) for n in range(count)]))
    tell(len(given.imports()) == count, "each import is named")
    heard = []
    with given.instance({("env", "f0"): lambda caller: heard.append(1)}) as it:
        it.call("run")
    took = time.process_time() - begun
    tell(heard == [1] and took < 60, f"{count} imports: {took:.1f} s")


def lets_go(caller):
    caller.abandon()


def returns_after_abandon():
    with opened(module({b"run": ASK, b"rest": RETURN}), lets_go) as it:
        refused = raised(sandbox.Refused, it.call, "run")
        tell(refused and refused.number == 105, "an answer after abandon is NOT_ASKED")
        it.call("rest")


asks_without_end()
grows_while_asked()
reads_what_comes()
traps_at_once()
has_strange_names()
imports_many(1_000 if "--quick" in sys.argv else 100_000)
returns_after_abandon()
print("\n".join(wrong))
sys.exit(bool(wrong))

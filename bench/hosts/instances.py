"""Calls of an instance from Python: results, units, exceptions and what a function of the host may do. bench/embed calls it.

    instances.py FOLDER of sandbox.py MODULE
"""
import sys

sys.path.insert(0, sys.argv[1])
import sandbox  # noqa: E402
import sandbox_plugin as plugins  # noqa: E402

wrong = []


def tell(is_wanted, what):
    if not is_wanted:
        wrong.append(what)


def raised(kind, call, *arguments, **more):
    try:
        call(*arguments, **more)
    except kind as it:
        return it
    return None


def busy(instance, number):
    tell(raised(plugins.Busy, instance.call, "count"), "a call while a function of the host is asked is Busy")
    instance.write(8, b"\7\0\0\0")
    return 2 * number


def angry(instance, number):
    raise LookupError(f"not {number}")


with open(sys.argv[2], "rb") as it:
    plugin = plugins.Plugin(it.read(), pages=1)
tell(plugin.imports() == [("env", "twice")], "the names of imports")
tell(plugin.exports() == ["_initialize", "add", "ask", "fail", "count"], "the names of exports")
with plugin.instance(imports={("env", "twice"): busy}) as one, plugin.instance(imports={("env", "twice"): angry}) as other:
    tell(one.call("add", 2, 3) == 5 and one.used == 5, "a sum")
    tell(one.call("ask", 5) == 17, "a function of the host, which writes")
    tell(one.read(8, 4) == b"\7\0\0\0" and other.read(8, 4) == bytes(4), "each instance has its memory")
    tell(str(raised(LookupError, other.call, "ask", 3)) == "not 3", "what a function of the host raises goes on")
    tell(other.call("count") == 41 and one.call("count") == 41, "and another function can be called then")
    end = raised(plugins.Ended, one.call, "fail")
    stood = [(plugin.function_name(it.function), it.offset) for it in end.frames] if end else None
    tell(stood == [("fail", 0x8e)] and one.frames() == [], f"a trap is told where it was: {stood}")
    tell(end and end.told.kind == 1 and one.call("count") == 42, "a trap leaves an instance")
    tell(raised(plugins.Ended, one.call, "count", fuel=2) and one.call("count") == 43, "and so does a call without fuel")
    tries: list[tuple[list, int]] = [(["none"], 108), (["add", 1], 109), (["add", 2**32, 0], 109)]
    for words, number in tries:
        why = raised(sandbox.Refused, one.call, *words)
        tell(why and why.number == number, f"{words} is refused with {number}")
    why = raised(sandbox.Refused, one.read, 65533, 4)
    tell(why and why.number == 110, "nothing is read past the end")
    tell(raised(OverflowError, one.call, "add", -1, 0) and raised(ValueError, one.call, "add", 1.0, 0), "numbers that don't fit")
    tell(len(one.finish()) == 202 * 512, "its volume")
    tell(raised(sandbox.Refused, one.call, "count"), "nothing is called of a finished one")
with plugin.instance() as one:
    tell(raised(KeyError, one.call, "ask", 1), "an import without a function is named")
print("\n".join(wrong))
sys.exit(bool(wrong))

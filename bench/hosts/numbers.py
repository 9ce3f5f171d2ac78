"""Numbers that don't fit, handed to the wrapper in Python: each is an error that names its argument, and nothing is done.

    python3 bench/hosts/numbers.py FOLDER     (FOLDER has sandbox.py)
"""
import os
import sys

sys.path.insert(0, sys.argv[1])
import sandbox  # noqa: E402

HI = os.path.join(os.path.dirname(os.path.abspath(__file__)), "..", "..", "examples", "hi.wasm")
TOO_FAR = {32: (-1, 2**32, 2**64, -(2**64)), 64: (-1, 2**64, 2**64 + 5, -5), 31: (-1, 2**31, 2**32 + 3)}
NO_NUMBERS = (1.0, 5.5, float("inf"), float("nan"), True, False, "5", b"5", None, 1j, [1], (1,))
wrong = tried = 0


def want(what, is_so):
    global wrong, tried
    wrong, tried = wrong + (not is_so), tried + 1
    if not is_so:
        print(f"wrong: {what}")


def refused(name, call, bits, no_numbers=NO_NUMBERS):
    for value, kind in [*((it, OverflowError) for it in TOO_FAR[bits]), *((it, ValueError) for it in no_numbers)]:
        try:
            call(value)
            want(f"{name}={value!r} is taken", False)
        except kind as error:
            want(f"{name}={value!r}: {error}", str(error).startswith(f"{name} is "))



def main():
    with open(HI, "rb") as it:
        module = sandbox.Module(it.read())
    refused("pages", lambda value: sandbox.Prepared(module._bytes, value), 32)
    refused("function", module.function_name, 32)
    for name, bits in (("pages", 32), ("values", 32), ("output", 64), ("moment", 64)):
        refused(name, lambda value: module.session(**{name: value}), bits)
    with module.session(args=["hi"]) as session:  # the module is there still
        refused("units", session.resume, 64)
        refused("fuel", session.run, 64)
        refused("descriptor", session.output, 32)
        refused("descriptor", session.full, 32)
        refused("start", lambda value: session.output(start=value), 64)
        refused("descriptor", session.settle, 31)
        refused("most", session.frames, 64)
        for value in (0, 1, 2):
            try:
                session.settle(value)
                want(f"settle({value}) is taken", False)
            except ValueError as error:
                want(f"settle({value}): {error}", "standard stream" in str(error))
        want("nothing ran", session.resume(0).used == 0)
        want("fuel is counted from the beginning", session.resume(4).used == 4 and session.run(4).used == 4 and session.run(2).used == 4)
        want("the end", session.run(2**64 - 1).kind == sandbox.EXITED and session.output() == b"hi\n" and not session.full())
    refused("sectors", lambda value: sandbox.empty_volume(value), 64)
    refused("slots", lambda value: sandbox.empty_volume(1000, value), 32)
    refused("number", sandbox.text, 32)
    refused("kind", lambda value: sandbox.text(1, value), 32)
    refused("descriptor", sandbox.apart, 31)
    for kept, output in ((3, 0), (1, 1), (2, 2), (3, 3), (3, 2**64 - 1)):
        with module.session(output=output) as session:
            session.run(1000)
            want(f"output={output}", session.output() == b"hi\n"[:kept] and session.full() == (kept < 3) and not session.full(2) and not session.full(7))
    for pages, fault in ((65537, 15), (2**32 - 1, 15)):
        try:
            module.session(pages=pages)
            want(f"pages={pages} is taken", False)
        except sandbox.Refused as error:
            want(f"pages={pages}: {error}", error.number == fault)
    for sectors, slots in ((0, 1), (136, 1), (65537, 1), (2**64 - 1, 1), (137, 0), (137, 15)):
        try:
            sandbox.empty_volume(sectors, slots)
            want(f"a volume of {sectors} sectors and {slots} slots is made", False)
        except sandbox.Refused as error:
            want(f"empty_volume: {error}", error.number == 36)
    for what, call in (("a module of a number", lambda: sandbox.Module(8)), ("an argument that is a number", lambda: module.session(args=[8])),
                       ("an input that is a number", lambda: module.session(input=8)), ("random bytes that are a number", lambda: module.session(random=8))):  # fmt: skip
        try:
            call()
            want(f"{what} is taken", False)
        except TypeError:
            want(what, True)
    print(f"{tried} numbers and bytes handed to the wrapper in Python: {wrong} wrong")
    return int(wrong > 0)


sys.exit(main())

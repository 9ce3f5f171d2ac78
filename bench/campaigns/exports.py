"""A function that `run --invoke` calls, beside each other option and each pair of them.

The guest is the command of the other rows, and the same bytes with another name for `_start`: called by that name, it ends as the
command does, with the same streams and files. What tells of a command's run alone is refused before any file is cut.
"""
import collections
import itertools

from files import Scene, drawn, wanted

NAME = b"worker"  # as long as `_start`, so that no length changes
TOLD_OF_COMMANDS = ["--tests", "--report", "--profile"]
OF_FILES = ["--stdin", "--stdout", "--stderr", "--random", "--volume", "--image", "--image-from", "--volume-out", "--out-to"]
OF_WORDS = {
    "--fuel": ["0", "3", "40", "200", "1000000"],
    "--pages": ["0", "1", "65536"],
    "--values": ["1", "4", "1000"],
    "--output": ["0", "2", "9"],
    "--frames": ["0", "1", "16"],
    "--seed": ["7"],
    "--dir": ["/=/", "/a=/kept", "a=/none"],
    "--env": ["A=b", "A"],
    "--time": ["12"],
    "--name": ["other"],
    "--interactive": [None],
    "--floats": [None],
}


def renamed(module):
    """The module with another name for `_start`."""
    wanted(module.count(b"_start") == 1, "a module names `_start` once")
    return module.replace(b"_start", NAME)


def choices():
    """Each option, with a word for it or the role of a file."""
    return [(option, None) for option in OF_FILES] + [(option, word) for option, words in OF_WORDS.items() for word in words]


def items():
    """Each option alone, and each pair of different ones, contradicting ones too."""
    alone = [(it,) for it in choices()]
    pairs = [pair for pair in itertools.combinations(choices(), 2) if pair[0][0] != pair[1][0]]
    return [*alone, *pairs, *((it, None) for it in TOLD_OF_COMMANDS)]


def called_so(setting, given, function):
    """What a run gives and leaves: of the command, or of a function that is called."""
    with Scene(setting) as it:
        words = []
        for option, word in given:
            words.append(option)
            if option in OF_FILES:
                words.append(it.made(option))
            elif word is not None:
                words.append(word)
        if "--volume-out" in words and not {"--image", "--image-from"} & {*words}:
            words += ["--image", it.made("--image")]
        module = it.made("module", "m")
        if function:
            with open(f"{it.folder}/{module}", "wb") as file:
                file.write(renamed(Scene.templates["module"]))
            words += ["--invoke", NAME.decode()]
        got = it.call(["run", *words, module])
        return got, {name: bytes_ for name, bytes_ in it.files().items() if name != module}


def unnamed(text):
    """Lines on standard error without the name of what was called, which a backtrace and words may have."""
    return text.replace(NAME.decode(), "_start")


def beside(setting, item):
    """One set of options with the command and with the function."""
    if item[1:] == (None,):
        return refused(setting, item[0])
    command, function = called_so(setting, item, False), called_so(setting, item, True)
    what = f"--invoke beside {item}: {function[0]}, the command {command[0]}"
    wanted(command[0][:2] == function[0][:2] and command[0][2] == unnamed(function[0][2]), what)
    wanted(command[1] == function[1], f"{what}: other files")
    return "pairs" if len(item) == 2 else "options"


def refused(setting, option):
    """An option that tells of a command's run: fault 15, and nothing is cut."""
    with Scene(setting) as it:
        name, module = it.made(option), it.made("module")
        before = it.files()
        got = it.call(["run", "--invoke", "_start", option, name, module])
        wanted(got[:2] == (124, b"") and got[2].startswith("sandbox: fault 15\n") and it.files() == before, f"--invoke with {option}: {got}")
    return "refused"


def row(setting):
    """The row."""
    with Scene(setting):
        pass  # its templates are made once
    found = collections.Counter(setting.each(lambda item: beside(setting, item), drawn(setting, items(), 40)))
    return sum(found.values()), ", ".join(f"{name} {count}" for name, count in sorted(found.items()))

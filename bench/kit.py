"""The kit's command `rt` as a module, for scripts that call its functions."""
import importlib.machinery
import importlib.util
import os
import shutil
import sys


def load(*functions):
    """The module `rt`, or none where there is no kit or where it lacks one of these functions, as of another version."""
    path = shutil.which("rt")
    if not path:
        return None
    sys.dont_write_bytecode = True
    try:
        loader = importlib.machinery.SourceFileLoader("rt", os.path.realpath(path))
        rt = importlib.util.module_from_spec(importlib.util.spec_from_loader("rt", loader))
        sys.modules["rt"] = rt
        loader.exec_module(rt)
    except (SyntaxError, ValueError):
        return None
    return rt if all(has(rt, it) for it in functions) else None


def has(module, function):
    for name in function.split("."):
        if not hasattr(module, name):
            return False
        module = getattr(module, name)
    return True

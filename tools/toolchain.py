"""What the programs beside this file use of the toolchain: its command `rt`, which is itself Python, is loaded into this process.

What they call of it is no promise of the toolchain, so each of them names what it calls. Where a toolchain lacks one of these names,
`load` raises `Lacks` with a sentence, and the caller does with the command itself what can be done so.
"""
import importlib.machinery
import importlib.util
import os
import re
import shutil
import sys


class Lacks(Exception):
    """The toolchain isn't there, or isn't as the caller wants it."""


def command():
    """Returns the path of the toolchain's own `rt`. What is on the path may be a small script that calls it."""
    found = os.environ.get("RT") or shutil.which("rt")
    path = os.path.realpath(found or "")
    if not found or not os.path.isfile(path):
        raise Lacks("the toolchain's command rt isn't on the path")
    if os.path.getsize(path) < 4096:
        with open(path, errors="replace") as text:
            named = [it for it in re.findall(r"/\S+/bin/rt\b", text.read()) if os.path.isfile(it)]
        path = named[0] if named else path
    return path


def load(names):
    """Returns the module that `rt` is. It has to have these names, as `need` or `rtlib.Crate.below`."""
    path = command()
    sys.dont_write_bytecode = True
    try:
        loader = importlib.machinery.SourceFileLoader("rt", path)
        module = importlib.util.module_from_spec(importlib.util.spec_from_loader("rt", loader))
        sys.modules["rt"] = module
        loader.exec_module(module)
    except (SyntaxError, ImportError, OSError, AttributeError) as error:
        raise Lacks(f"{path} can't be loaded as Python ({error})") from error
    for name in names:
        value = module
        for part in name.split("."):
            value = getattr(value, part, None)
        if value is None:
            raise Lacks(f"{path} has no {name}, which the toolchain that this was written for has")
    return module

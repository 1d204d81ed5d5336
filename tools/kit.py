"""The kit's own `rt` as a module, for tools that need what it knows of crates, edits and checks."""

import importlib.machinery
import importlib.util
import os
import re
import shutil
import sys

sys.dont_write_bytecode = True
TOP = os.path.dirname(os.path.dirname(os.path.realpath(__file__)))


def kit():
    """Returns the module, loaded once."""
    if "rtmain" in sys.modules:
        return sys.modules["rtmain"]
    path = os.path.realpath(shutil.which("rt"))
    if not os.path.isfile(f"{os.path.dirname(path)}/rtlib.py"):
        # the one on the path only starts the kit's
        with open(path, errors="replace") as it:
            path = re.search(r"(/\S+/bin)/rt\b", it.read())[0]
    sys.path.insert(0, os.path.dirname(path))
    loader = importlib.machinery.SourceFileLoader("rtmain", path)
    module = importlib.util.module_from_spec(importlib.util.spec_from_loader("rtmain", loader))
    sys.modules["rtmain"] = module
    loader.exec_module(module)
    module.rtlib.guarded()
    return module


def crate(name):
    """Returns the crate of a name."""
    return next(it for it in kit().rtlib.crates_below(TOP) if it.name == name)


def children_seconds():
    """Returns the processor seconds of the processes that this one has waited for."""
    times = os.times()
    return times.children_user + times.children_system

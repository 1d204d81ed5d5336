"""The files of definitions, crate by crate from the bottom up, and where docs/DEFINITIONS.md tells of each."""

import glob
import os
import re

TOP = os.path.dirname(os.path.dirname(os.path.realpath(__file__)))


def lines_of(path):
    with open(path, encoding="utf-8") as it:
        return it.read().split("\n")


def crates():
    """The crates in the order of crates.txt, each after those that it stands on."""
    rows = re.findall(r"(?m)^(\w+):(.*)$", "\n".join(lines_of(f"{TOP}/crates.txt")))
    below = {name: {*words.split()} for name, words in rows}
    left, order = [*below], []
    while left:
        order.append(next(it for it in left if not below[it] & {*left}))
        left.remove(order[-1])
    return order


def files_of(crate):
    """The modules of a crate's definitions, each with its path, except the one that only names the others."""
    top = f"{TOP}/crates/{crate}/specs"
    paths = sorted(glob.glob(f"{top}/**/*.antt", recursive=True))
    return {module_of(top, path): path for path in paths if path != f"{top}/Lib.antt"}


def module_of(top, path):
    return os.path.relpath(path, top).removesuffix(".antt").replace("/", ".")


def place_of(crate, module=""):
    """What a link to a heading of docs/DEFINITIONS.md has after the `#`."""
    title = f"{crate} {module}".strip().lower()
    return re.sub(r"[^\w -]", "", title).replace(" ", "-")

"""The licences of the kit's libraries that the program has in it."""

import os

import kit

COMMON_APACHE = "Apache License 2.0, which stands in /usr/share/common-licenses/Apache-2.0"


def libraries():
    """The folder of each library of the kit that the program or a crate below it stands on."""
    rtlib = kit.kit().rtlib
    crate = kit.crate("sunsite")
    words = rtlib.kit_sources(name for it in [crate, *crate.below()] for name in it.of_kit)
    # (each is told as NAME:LIBRARIES=PATH/src/lib.rt)
    return sorted({os.path.dirname(os.path.dirname(it.partition("=")[2])) for it in words if "=" in it})


def licence_of(folder):
    """The text of a library's licence, the MIT one where there are several; none where its folder has no such file."""
    names = sorted(it for it in os.listdir(folder) if it.startswith("LICENSE"))
    texts = []
    for name in ["LICENSE-MIT"] if "LICENSE-MIT" in names else names:
        with open(f"{folder}/{name}", encoding="utf-8") as it:
            text = it.read().strip()
        texts.append(COMMON_APACHE if text.startswith("Apache License") else text)
    return "\n\n".join(texts)


def notices():
    """What a package says of these libraries: each licence once, with the libraries that have it."""
    found = {}
    for folder in libraries():
        found.setdefault(licence_of(folder), []).append(os.path.basename(folder))
    without = found.pop("", [])
    parts = ["The program has libraries of the kit in it that proved and built it."]
    if without:
        parts.append(f"For these the kit has no file with a licence:\n{', '.join(without)}")
    for text, names in sorted(found.items(), key=lambda it: it[1]):
        parts.append(f"{', '.join(names)}:\n\n{indented(text)}")
    return "\n\n".join(parts) + "\n"


def indented(text):
    """A text with its lines set in."""
    return "\n".join(f"  {line}".rstrip() for line in text.split("\n"))

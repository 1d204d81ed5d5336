#!/usr/bin/env python3
"""Compares what cases printed with the file that says what they have to print, or writes that file anew.

  tools/golden.py FILE PRINTED [--write]      prints each difference, and last 'N passed, M failed'

A case goes from its headline (`=== `) to the next. One that stands on one side alone has failed.
"""

import os
import subprocess
import sys

TOP = os.path.dirname(os.path.dirname(os.path.realpath(__file__)))


def hold(path, printed, is_written):
    """Holds the bytes that were printed against a file; returns the exit status."""
    if is_written:
        with open(path, "wb") as it:
            it.write(printed)
    with open(path, "rb") as it:
        wanted = it.read()
    labels = ["--label", os.path.relpath(path, TOP), "--label", "printed now"]
    subprocess.run(["diff", "-u", "--show-function-line=^=== ", *labels, path, "-"], input=printed, check=False)
    one, other = by_case(wanted), by_case(printed)
    passed = sum(one.get(key) == case for key, case in other.items())
    failed = len({*one, *other}) - passed
    print(f"{passed} passed, {failed} failed")
    return 1 if failed else 0


def by_case(text):
    """The text of each case, by its headline and how many have had the same one before."""
    found, times = {}, {}
    for case in (b"\n" + text).split(b"\n=== ")[1:]:
        title = case.split(b"\n")[0]
        times[title] = times.get(title, 0) + 1
        found[title, times[title]] = case.rstrip(b"\n")
    return found


if __name__ == "__main__":
    words = sys.argv[1:]
    if len(words) not in (2, 3) or words[2:] not in ([], ["--write"]):
        sys.exit(__doc__)
    with open(words[1], "rb") as it:
        sys.exit(hold(words[0], it.read(), words[2:] == ["--write"]))

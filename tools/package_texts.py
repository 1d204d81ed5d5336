"""What tools/try-package looks at in the texts of a package: manual pages, completions, the unit."""

import collections
import gzip
import os
import re
import shutil
import subprocess

import manual
from serve_parts import TOP

PAGES = ("man1/sunsite.1", "man5/sunsite-site.5")
UNIT = "usr/lib/systemd/system/sunsite.service"
# the exposure that `systemd-analyze security` may tell at most, in tenths
EXPOSURE = 15


def ran(*words, **how):
    """A command that ended, with what it printed."""
    return subprocess.run(words, capture_output=True, text=True, check=False, **how)


def leave(what, *missing):
    """Says what isn't tried, since programs for it aren't installed here."""
    print(f"not tried: {what}, since {' and '.join(missing)} {'is' if len(missing) == 1 else 'are'}n't installed here")


def read(path):
    with open(path, encoding="utf-8") as it:
        return it.read()


def write(path, text):
    with open(path, "w", encoding="utf-8") as it:
        it.write(text)


# Manual pages

def page(root, name):
    """The text of a manual page that is installed below a root."""
    with gzip.open(f"{root}/usr/share/man/{name}.gz", "rt", encoding="utf-8") as it:
        return it.read()


def shown(roff):
    """The letters of a manual page, without what is said to roff."""
    lines = [re.sub(r"^\.S[HS] ", "", line) for line in roff.split("\n")]
    text = "\n".join(line for line in lines if not line.startswith("."))
    for mark, sign in ((r"\&", ""), (r"\-", "-"), (r"\(aq", "'"), (r"\(ga", "`"), (r"\(ha", "^"), (r"\(ti", "~"), (r"\(dq", '"'), (r"\e", "\\")):
        text = text.replace(mark, sign)
    return re.sub(r"\\f[BIR]", "", text)


def words_of(text):
    """How often each word stands in a text."""
    return collections.Counter(re.findall(r"\w+", text))


def words_of_document(text):
    """The words of a document that a reader sees, except those of its title and of the headings of its tables."""
    text = re.sub(r"^\|.*\n(?=\|[-|: ]+\n)|^```.*$|^# .*$", "", text, flags=re.M)
    return words_of(re.sub(r"\]\([^)]*\)", "", text))


def try_manual(counts, root, folder, program_words):
    """Manual pages: nothing of their document is missing, each option stands on them, and their readers have no warnings."""
    texts = [page(root, name) for name in PAGES]
    missing = words_of_document(manual.joined(lambda path: read(f"{TOP}/{path}"))) - words_of("\n".join(map(shown, texts)))
    counts.note("all words of their documents are on the manual pages", not missing, missing)
    for command, options in program_words.items():
        for option in [it for it in options if it.startswith("--")]:
            counts.note(f"sunsite(1) has {option} of {command or 'sunsite'}", re.search(rf"{option}\b", shown(texts[0])))
    for name, text in zip(PAGES, texts):
        path = f"{folder}/{os.path.basename(name)}"
        write(path, text)
        try_page(counts, path)


def try_page(counts, path):
    """A manual page, by each of its readers that is there."""
    surroundings = {**os.environ, "LC_ALL": "C.UTF-8", "MANWIDTH": "80"}
    readers = {
        "man": ("man", "--warnings", "-E", "UTF-8", "-l", path),
        "groff": ("groff", "-man", "-Kutf8", "-Tutf8", "-ww", path),
        "mandoc": ("mandoc", "-Tlint", "-Wwarning", path),
        "lexgrog": ("lexgrog", path),
    }
    for name, words in readers.items():
        if shutil.which(name):
            it = ran(*words, env=surroundings)
            is_silent = name == "mandoc"
            holds = it.returncode == 0 and not it.stderr and bool(it.stdout) != is_silent
            counts.note(f"{name} reads {os.path.basename(path)} without a warning", holds, it.stderr or is_silent and it.stdout)
    if not any(shutil.which(name) for name in ("man", "groff", "mandoc")):
        leave(f"whether {os.path.basename(path)} has warnings", "man", "groff", "mandoc")


# Completions

def left_words(text, heading):
    """The words on the left below a heading of a help."""
    part = text.partition(f"\n{heading}:\n")[2].partition("\n\n")[0]
    return [line.strip().split("  ")[0] for line in part.split("\n") if line.strip()]


def words_by_help(program):
    """The options of each command by its help; those of the program itself have the name ''."""
    told = ran(program, "--help").stdout
    commands = ["", *left_words(told, "Commands")]
    helps = {name: ran(program, *([name] if name else []), "--help").stdout for name in commands if name != "help"}
    return {name: re.findall(r"(?<!\S)--?\w[\w-]*", " ".join(left_words(text, "Options"))) for name, text in helps.items()}


def completed(file, folder, *words):
    """What bash completes the last of these words to."""
    script = 'file=$1; shift; . "$file"; COMP_WORDS=("$@"); COMP_CWORD=$(($# - 1)); _sunsite; printf "%s\\n" "${COMPREPLY[@]}"'
    it = ran("bash", "-c", script, "bash", file, "sunsite", *words, cwd=folder)
    return it.stderr or sorted(it.stdout.split())


def try_bash(counts, root, folder, program_words):
    """What bash completes, against what the helps have."""
    room = f"{folder}/completing"
    os.makedirs(room)
    write(f"{room}/mine.toml", "")
    ask = lambda *words: completed(f"{root}/usr/share/bash-completion/completions/sunsite", room, *words)
    commands = [name for name in program_words if name]
    counts.note("the first word", ask("") == sorted([*commands, "help", *program_words[""]]), ask(""))
    counts.note("help COMMAND", ask("help", "") == sorted([*commands, "help"]), ask("help", ""))
    for name in commands:
        counts.note(f"the options of {name}", ask(name, "-") == sorted(program_words[name]), ask(name, "-"))
    for words, wanted in (
        (("se",), ["serve"]),
        (("check", "mi"), ["mine.toml"]),
        (("check", "site.toml", "mi"), ["mine.toml"]),
        (("run", "--plant", "mi"), ["mine.toml"]),
        (("serve", "s", "p", "--times", ""), ["seconds", "utc"]),
        (("serve", "s", "p", "--every", ""), []),
        (("probe", "--unit", ""), []),
        (("serve", "s", "p", "--st"), ["--state", "--status-file"]),
    ):
        counts.note(f"sunsite {' '.join(words)}", ask(*words) == wanted, ask(*words))


def try_zsh(counts, root, program_words):
    """The words of the completion for zsh, against what the helps have."""
    path = f"{root}/usr/share/zsh/vendor-completions/_sunsite"
    text = read(path)
    options_in = lambda part: sorted(re.findall(r"'\*(--?[\w-]+)\[", part))
    cases = dict(re.findall(r"^        (\w+)\)\n            _arguments((?:.*\\\n)*.*)", text, re.M))
    names = re.findall(r"^        '(\w+):", text.partition("names=(")[2].partition("\n    )")[0], re.M)
    first = re.search(r"^    _arguments -C((?:.*\\\n)*.*)", text, re.M)[1]
    counts.note("the first word in zsh", sorted(names) == sorted([*filter(None, program_words), "help"]), names)
    counts.note("its options in zsh", options_in(first) == sorted(program_words[""]), first)
    for name in filter(None, program_words):
        counts.note(f"the options of {name} in zsh", options_in(cases[name]) == sorted(program_words[name]), cases[name])
    if shutil.which("zsh"):
        it = ran("zsh", "-n", path)
        counts.note("zsh reads its completion", it.returncode == 0 and not it.stderr, it.stderr)
    else:
        leave("whether zsh reads its completion", "zsh")


# The unit

def try_unit(counts, root, folder):
    """The unit as systemd reads it, by itself and with what SERVICE.md has for a port below 1024."""
    if shutil.which("systemd-analyze") is None:
        leave("the unit", "systemd-analyze")
        return
    path, more = f"{folder}/units/sunsite.service", f"{folder}/units/sunsite.service.d/override.conf"
    os.makedirs(os.path.dirname(more))
    write(path, read(f"{root}/{UNIT}").replace("/usr/bin/sunsite", f"{root}/usr/bin/sunsite"))
    it = ran("systemd-analyze", "verify", "--man=no", path)
    counts.note("the unit is well", it.returncode == 0 and not it.stdout + it.stderr, it)
    it = ran("systemd-analyze", "security", "--offline=yes", f"--threshold={EXPOSURE}", "--no-pager", path)
    counts.note("the unit's exposure", it.returncode == 0, it.stdout.strip().split("\n")[-1] + it.stderr)
    for text in re.findall(r"^```ini\n(.*?)^```$", read(f"{root}/usr/share/doc/sunsite/SERVICE.md"), re.M | re.S):
        write(more, text)
        it = ran("systemd-analyze", "verify", "--man=no", path)
        counts.note("the unit is well with what SERVICE.md adds", it.returncode == 0 and not it.stdout + it.stderr, (text, it))

"""Completions for bash and zsh, made of what `sunsite --help` and `sunsite COMMAND --help` print."""

import re
import subprocess
from typing import NamedTuple

# names of words and values that are files
FILE_NAMES = ("SITE", "PROGRAM", "PLANT", "FILE", "PATH")
ROW = re.compile(r" {2}(?: {4})?(?P<words>\S.*?)(?: {2,}(?P<about>\S.*))?")


class Word(NamedTuple):
    """An option with its spellings, or a word of a command without them: the name of its value, and what its help says."""

    spellings: list
    value: str
    about: str

    def is_file(self):
        """Whether its value is the path of a file."""
        return self.value in FILE_NAMES

    def choices(self):
        """The words that its value may be: those that its help has in quotes."""
        return re.findall(r"(?<!\w)'([\w-]+)'", self.about) if self.value else []


class Command(NamedTuple):
    """A command: what its help says it is for, its words in order, and its options."""

    about: str
    words: list
    options: list


class Program(NamedTuple):
    """What may follow the program's name: its options, and its commands by their names."""

    options: list
    commands: dict


def asked(program, *words):
    """What the program prints of its words."""
    return subprocess.run([program, *words, "--help"], capture_output=True, text=True, check=True).stdout


def rows(text, heading):
    """The rows below a heading of a help: the words on the left, and what is said of them."""
    part = re.search(rf"^{heading}:\n((?:  .*\n)+)", text, re.M)
    found = [ROW.fullmatch(line) for line in part[1].splitlines()] if part else []
    if None in found:
        raise SystemExit(f"completions: a row below {heading} has another form: {part[1]}")
    return [(row["words"], row["about"] or "") for row in found]


def word_of(words, about):
    """An option, or a word of a command, as a help has it."""
    spelled_as, value = re.fullmatch(r"([^<\[]*)(?:[<\[](.+)[>\]])?", words).groups()
    return Word(re.findall(r"-[\w-]+", spelled_as), value or "", about)


def words_below(text, heading):
    """The options or words below a heading of a help."""
    return [word_of(*row) for row in rows(text, heading)]


def known_words(program):
    """All words that the program's command line knows."""
    told = asked(program)
    commands = {}
    for name, about in rows(told, "Commands"):
        help_text = asked(program, name) if name != "help" else ""
        commands[name] = Command(about, words_below(help_text, "Arguments"), words_below(help_text, "Options"))
    return Program(words_below(told, "Options"), commands)


def spelled(options):
    """The spellings of options, all in one line."""
    return " ".join(spelling for it in options for spelling in it.spellings)


# bash

BASH = """# bash completion for sunsite
# Made by tools/package of what 'sunsite --help' prints.

_sunsite() {
    local word=${COMP_WORDS[COMP_CWORD]} before=${COMP_WORDS[COMP_CWORD-1]} words="" files=""
    COMPREPLY=()
    if [ "$COMP_CWORD" = 1 ]; then
        words="@COMMANDS@"
    else
        case ${COMP_WORDS[1]} in
@CASES@        esac
    fi
    case $word in
    -*) files="" ;;
    *) [ -z "$files" ] || words="" ;;
    esac
    mapfile -t COMPREPLY < <(compgen -W "$words" -- "$word"; [ -z "$files" ] || compgen -f -- "$word")
    [ -z "$files" ] || compopt -o filenames 2>/dev/null
}
complete -F _sunsite sunsite
"""


def bash_values(command):
    """The cases of a command where the word before is an option that takes a value."""
    found, kinds = "", {"files=yes": [], "": []}
    for it in [it for it in command.options if it.value]:
        choices = " ".join(it.choices())
        kinds.setdefault(f'words="{choices}"' if choices else "files=yes" if it.is_file() else "", []).extend(it.spellings)
    for what, spellings in kinds.items():
        if spellings:
            found += f"            {'|'.join(spellings)}) {what}{' ' if what else ''};;\n"
    return found


def bash_case(name, command, commands):
    """The case of a command."""
    if name == "help":
        return f'        help) words="{" ".join(commands)}" ;;\n'
    files = " files=yes" if any(it.is_file() for it in command.words) else ""
    usual = f'words="{spelled(command.options)}"{files}'
    values = bash_values(command)
    return f"        {name})\n            case $before in\n{values}            *) {usual} ;;\n            esac\n            ;;\n"


def bash(program):
    """The completion for bash."""
    first = " ".join([*program.commands, spelled(program.options)])
    cases = "".join(bash_case(name, it, program.commands) for name, it in program.commands.items())
    return BASH.replace("@COMMANDS@", first).replace("@CASES@", cases)


# zsh

ZSH = """#compdef sunsite
# Made by tools/package of what 'sunsite --help' prints.

_sunsite() {
    local curcontext=$curcontext state line
    local -a names
    local -A opt_args
    names=(
@COMMANDS@
    )
    _arguments -C @OPTIONS@
    case $state in
    command)
        _describe command names
        ;;
    words)
        case $words[1] in
@CASES@
        esac
        ;;
    esac
}

_sunsite "$@"
"""


def quoted(text):
    """A text in quotes of the shell."""
    return "'" + text.replace("'", "'\\''") + "'"


def marked(text):
    """A text in which nothing is a mark of zsh's own."""
    return re.sub(r"([\[\]:\\])", r"\\\1", text)


def zsh_value(word):
    """What zsh does for the value of an option, or for a word."""
    choices = " ".join(word.choices())
    action = f"({choices})" if choices else "_files" if word.is_file() else " "
    return f":{marked(word.value)}:{action}"


def zsh_options(options):
    """What zsh is told of options, each of which may come again."""
    return [f"*{spelling}[{marked(it.about)}]{zsh_value(it) if it.value else ''}" for it in options for spelling in it.spellings]


def zsh_lines(told, indent):
    """Lines below a call, each of them a text in quotes."""
    return "".join(f" \\\n{indent}{quoted(it)}" for it in told)


def zsh_case(name, command, commands):
    """The case of a command."""
    told = zsh_options(command.options) + [f"{number}{zsh_value(it)}" for number, it in enumerate(command.words, 1)]
    if name == "help":
        told = [f"1:command:({' '.join(commands)})"]
    return f"        {name})\n            _arguments{zsh_lines(told, ' ' * 16)}\n            ;;"


def zsh(program):
    """The completion for zsh."""
    names = "\n".join(f"        {quoted(f'{name}:{it.about}')}" for name, it in program.commands.items())
    options = zsh_lines(zsh_options(program.options) + ["1: :->command", "*:: :->words"], " " * 8).removeprefix(" ")
    cases = "\n".join(zsh_case(name, it, program.commands) for name, it in program.commands.items())
    return ZSH.replace("@COMMANDS@", names).replace("@OPTIONS@", options).replace("@CASES@", cases)

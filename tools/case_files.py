"""Reads a file of cases (docs/CASES.md has its form): to the commands that its cases ask for, each with its texts."""

import os
import re
from dataclasses import dataclass, field

INPUT = "-"
TITLE, TEXT, COMMAND, ROW = "=== ", "--- ", "$", "> "
LETTERS = {"n": "\n", "r": "\r", "t": "\t", "\\": "\\"}
ESCAPE = re.compile(r"\\(?:([nrt\\])|u\{([0-9a-fA-F]+)\}|)")
HOW = re.compile(
    r"(?:(?P<kind>escaped|bytes)|(?P<locked>locked)|(?P<times>\d+) times|(?P<by>after|from) (?P<base>\S+)"
    r"|around (?P<hole>\S+)|by rows)(?: +|$)"
)


class Fault(Exception):
    """What is wrong with a line of a file of cases, or failed there."""


@dataclass
class File:
    """A text that a command gets as a file; a locked one may be read by nobody."""

    name: str
    content: bytes
    is_locked: bool


@dataclass
class Command:
    """A command: its place, the lines that show it, its words, its standard input, and its other texts."""

    place: str
    shown: list
    words: list
    given: bytes
    files: list


@dataclass
class Case:
    """A case: its headline and its commands."""

    title: str
    commands: list = field(default_factory=list)


class Text:
    """A text while its lines are read, and what a row changes in it."""

    def __init__(self, headline, texts):
        self.name, _, how = headline.partition(" ")
        self.text, self.kind, self.times, self.blanks = "", "plain", 1, 0
        self.is_locked, self.hole, self.takes_edits = False, "", False
        at, how = 0, how.strip(" ")
        while at < len(how):
            said = HOW.match(how, at)
            if said is None:
                raise Fault("a word of this headline says nothing of the text")
            self.take_word(said, texts)
            at = said.end()

    def take_word(self, said, texts):
        """Takes what a headline says of the text, which may begin with another one."""
        if said["kind"]:
            self.kind = said["kind"]
        elif said["locked"]:
            self.is_locked = True
        elif said["times"]:
            self.times = int(said["times"])
        elif said["base"]:
            bases = [it.text for it in texts if it.name == said["base"]]
            if not bases:
                raise Fault("the text that this one is made of isn't there")
            self.text, self.kind = bases[-1], "edits" if said["by"] == "from" else self.kind
        else:
            self.hole, self.takes_edits = said["hole"] or "", not said["hole"]

    def take(self, line):
        """Takes a line of the text."""
        if self.kind in ("escaped", "bytes"):
            self.text += unescaped(line) * self.times
        elif self.kind == "edits":
            self.text = edited(self.text, line) if line else self.text
        elif line:
            self.text += "\n" * self.blanks + (line + "\n") * self.times
            self.blanks = 0
        else:
            self.blanks += 1

    def end_rows(self):
        """Says that no row changes it any more: another text takes its place."""
        self.hole, self.takes_edits = "", False

    def wants_row(self):
        return self.takes_edits or self.hole != ""

    def changed(self, row):
        """Its bytes, as the row after a command changes it."""
        text = self.text
        if self.takes_edits:
            text = edited(text, row)
        elif self.hole:
            if self.hole not in text:
                raise Fault("what is to be replaced isn't there")
            text = text.replace(self.hole, unescaped(row))
        try:
            return text.encode("latin-1" if self.kind == "bytes" else "utf-8")
        except UnicodeEncodeError:
            raise Fault("a letter of this text is no byte") from None


class CaseFile:
    """A file of cases while its lines are read: what it asks for so far."""

    def __init__(self, path):
        self.path, self.at, self.cases = path, 0, []
        self.texts, self.shared, self.is_text = [], 0, False
        self.words, self.shown = None, []

    def read(self):
        """Returns its cases; a fault has the file's name and the line."""
        try:
            with open(self.path, newline="", encoding="utf-8") as it:
                lines = lines_of(it.read())
            for self.at, line in enumerate(lines, 1):
                self.take(line, self.at < len(lines) and lines[self.at].startswith(ROW))
        except (OSError, UnicodeDecodeError):
            raise Fault(f"{self.place()}: the file can't be read") from None
        except Fault as fault:
            raise Fault(f"{self.place()}: {fault}") from None
        return self.cases

    def place(self):
        return f"{os.path.basename(self.path)}:{self.at}"

    def take(self, line, has_row):
        """Takes a line, after which a row stands or doesn't."""
        if line.startswith(TITLE):
            self.begin_case(line)
        elif line.startswith(TEXT):
            self.begin_text(line.removeprefix(TEXT))
        elif line.startswith(COMMAND):
            self.begin_command(line, has_row)
        elif self.is_text:
            self.texts[-1].take(line)
        elif self.words is not None and line.startswith(ROW):
            self.shown.append(line)
            self.add_command(line.removeprefix(ROW))
        elif line and (self.cases or line.startswith(ROW)):
            raise Fault("no mark begins this line")

    def begin_case(self, line):
        if not self.cases:
            self.shared = len(self.texts)
        del self.texts[self.shared :]
        self.cases.append(Case(line))
        self.words, self.is_text = None, False

    def begin_text(self, headline):
        text = Text(headline, self.texts)
        for it in self.texts:
            if it.name == text.name:
                it.end_rows()
        self.texts.append(text)
        self.words, self.is_text = None, True

    def begin_command(self, line, has_row):
        if not self.cases:
            raise Fault("a command belongs to a case")
        words = line.removeprefix(COMMAND).split(" ")
        self.words, self.shown, self.is_text = [unescaped(it) for it in words if it], [line], False
        if not has_row:
            self.add_command(None)

    def add_command(self, row):
        """Adds a command of these words, on the texts so far as a row changes them."""
        texts = {it.name: it for it in self.texts}
        wants_row = any(it.wants_row() for it in texts.values())
        if row is not None and not wants_row:
            raise Fault("no text has a place for this row")
        if row is None and wants_row:
            raise Fault("a text has a place for a row, and no row follows")
        contents = {name: it.changed(row) for name, it in texts.items()}
        given = contents.pop(INPUT, b"")
        files = [File(name, content, texts[name].is_locked) for name, content in contents.items()]
        self.cases[-1].commands.append(Command(self.place(), self.shown, self.words, given, files))
        self.shown = []


def unescaped(line):
    """A line in which what stands for a letter is that letter."""

    def letter(found):
        try:
            return LETTERS[found[1]] if found[1] else chr(int(found[2], 16))
        except (TypeError, ValueError, OverflowError):
            raise Fault("no letter has such an escape") from None

    return ESCAPE.sub(letter, line)


def edited(text, edit):
    """A text in which an edit `OLD => NEW` replaces the first `OLD`."""
    old, mark, new = edit.partition(" =>")
    if not mark:
        raise Fault("an edit is OLD => NEW")
    old, new = unescaped(old), unescaped(new.removeprefix(" "))
    if old not in text:
        raise Fault("what is to be replaced isn't there")
    return text.replace(old, new, 1)


def lines_of(text):
    """The lines of a text, without their ends."""
    lines = text.split("\n")
    if lines[-1] == "":
        lines.pop()
    return [it.removesuffix("\r") for it in lines]

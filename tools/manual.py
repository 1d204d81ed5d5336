"""The manual pages sunsite(1) and sunsite-site(5), made of the documents that docs/FORMATS.md names.

Each section of these stands on one page: those named in FILE_SECTIONS on sunsite-site(5), all others on sunsite(1). A
form of markdown that isn't known here ends the tool with the line's number, so that nothing is left out in silence.
"""

import re
from typing import NamedTuple

DOCUMENTS = "/usr/share/doc/sunsite"
# the documents, in order
PARTS = ("COMMANDS", "MESSAGES", "FILES", "LANGUAGE")
# the sections about files, in the order of their page
FILE_SECTIONS = (
    "Site file (TOML)",
    "Plant file (TOML)",
    "Definition files",
    "Instruction List text",
    "Instructions of each form",
    "The file of set values",
    "The status file",
)
# columns of a table whose cells don't speak for themselves
LABELLED = ("Status", "Example", "Count", "What to do")
OTHER_FORMS = re.compile(r"\s*(?:\d+\. |\* |\+ |>|<|!\[|---)|\s+\S")
INLINE = re.compile(r"`(?P<code>[^`]+)`|\[(?P<text>(?:[^\]`]|`[^`]*`)+)\]\((?P<target>[^)]+)\)")


class Block(NamedTuple):
    """A part of a document: its form, the number of its first line, its depth (of a heading or an item), its lines."""

    form: str
    number: int
    depth: int
    lines: list


def form_of(line, number):
    """The form of the block that a line begins or goes on with, and its depth; no form for an empty line."""
    if line.startswith("```"):
        return "code", 0
    if heading := re.match(r"(#+) ", line):
        return "heading", len(heading[1])
    if item := re.match(r"( *)- ", line):
        return "item", len(item[1]) // 2
    if line.startswith("|"):
        return "table", 0
    if OTHER_FORMS.match(line):
        raise SystemExit(f"manual: line {number} has a form that no manual page is made of: {line}")
    return ("text" if line else ""), 0


def blocks(text):
    """The blocks of a document, in order."""
    found, before, is_code = [], "", False
    for number, line in enumerate(text.rstrip("\n").split("\n"), 1):
        form, depth = ("code", 0) if is_code else form_of(line, number)
        goes_on = is_code or form == before and form in ("table", "text")
        if form and goes_on:
            found[-1].lines.append(line)
        elif form:
            found.append(Block(form, number, depth, [line]))
        if form == "code" and line.startswith("```"):
            is_code = not is_code
        before = form
    return found


def cells(row):
    """The cells of a row of a table."""
    return [cell.strip().replace("\\|", "|") for cell in re.split(r"(?<!\\)\|", row)[1:-1]]


def title(block):
    """What a heading says."""
    return block.lines[0].lstrip("#").strip()


def anchor(heading):
    """The name by which links reach a heading."""
    return re.sub(r"[^\w\- ]", "", heading.lower()).replace(" ", "-")


def plain(text):
    """A text without marks of code, with the program called as it is where it is installed."""
    return text.replace("`", "").replace("./sunsite", "sunsite")


def escaped(text, is_code=False):
    """A text as roff has it. What is code, and a dash that joins no words, can be copied from a terminal."""
    text = text.replace("\\", "\\e")
    if is_code:
        for sign, name in (("-", "\\-"), ("'", "\\(aq"), ("`", "\\(ga"), ("^", "\\(ha"), ("~", "\\(ti")):
            text = text.replace(sign, name)
    else:
        text = re.sub(r"(?<![^\W\d_])-|-(?![^\W\d_])", r"\\-", text)
    return "\\&" + text if text[:1] in (".", "'") else text


def bold(text):
    """A text that is typed as it stands."""
    return f"\\fB{escaped(plain(text), True)}\\fR"


class Names(NamedTuple):
    """What links may lead to: the page of each heading, by its anchor, and the documents beside these."""

    pages: dict
    documents: set

    def of_link(self, text, target, page):
        """What stands for a link on a page."""
        document, _, heading = target.partition("#")
        if document:
            self.documents.add(document)
            return f"{DOCUMENTS}/{document}" if text == document else f"{text} ({DOCUMENTS}/{document})"
        if heading not in self.pages:
            raise SystemExit(f"manual: no heading is named #{heading}")
        there = self.pages[heading]
        return plain(text) if there == page else f"{plain(text)} in {there}"


class Page:
    """A manual page that is being written."""

    def __init__(self, name, names):
        self.name, self.names, self.lines = name, names, []

    def inline(self, text):
        """A text with its code and links."""
        found, end = "", 0
        for it in INLINE.finditer(text):
            found += escaped(text[end:it.start()])
            found += bold(it["code"]) if it["code"] else escaped(self.names.of_link(it["text"], it["target"], self.name))
            end = it.end()
        found += escaped(text[end:])
        return "\\&" + found if found[:1] in (".", "'") else found

    def add(self, block):
        """Writes a block."""
        getattr(self, f"add_{block.form}")(block)

    def add_heading(self, block):
        """A section; one of a command has its words below it."""
        told = title(block)
        if block.depth > 3:
            self.lines += [".PP", bold(told)]
        elif is_command(told):
            self.lines += [f'.SH "sunsite {plain(told).split()[0]}"', bold(f"sunsite {plain(told)}")]
        else:
            words = escaped(plain(told), told.startswith("`")).replace('"', "\\(dq")
            self.lines.append(f'.{"SH" if block.depth == 2 else "SS"} "{words}"')

    def add_text(self, block):
        """A paragraph; after a heading none has to be begun."""
        begun = [] if self.lines[-1].startswith((".SH", ".SS")) else [".PP"]
        self.lines += [*begun, self.inline(" ".join(block.lines))]

    def add_item(self, block):
        """An item of a list, or of a list in it."""
        lines = [".IP \\(bu 2", self.inline(block.lines[0].lstrip(" -"))]
        self.lines += [".RS 2", *lines, ".RE"] if block.depth else lines

    def add_code(self, block):
        """Lines as they stand."""
        code = [escaped(line.replace("./sunsite", "sunsite"), True) for line in block.lines[1:-1]]
        self.lines += ['.IP "" 4', ".nf", *code, ".fi"]

    def add_table(self, block):
        """A row becomes a paragraph, whose mark is its first cell."""
        head, _, *rows = [cells(line) for line in block.lines]
        for first, *others in rows:
            told = [f"\\fI{name}:\\fR {self.inline(cell)}" if name in LABELLED else self.inline(cell)
                    for name, cell in zip(head[1:], others) if cell]
            self.lines += [".TP 4", self.inline(first), "\n.br\n".join(told) or "\\&"]


def is_command(heading):
    """Whether a heading has the words of a command."""
    return re.match(r"`[a-z]+ [A-Z]", heading) is not None


def joined(read):
    """The documents as one, in which links from one to another lead to its headings."""
    text = "\n".join(read(f"docs/{it}.md") for it in PARTS)
    return re.sub(rf"\]\((?:{'|'.join(PARTS)})\.md#", "](#", text)


def sections(text):
    """The sections of the documents by their headings, each with its blocks; what stands before a document's first has none."""
    found, told = {"": []}, ""
    for block in blocks(text):
        if block.form == "heading" and block.depth <= 2:
            told = title(block) if block.depth == 2 else ""
            found.setdefault(told, [])
        if block.form != "heading" or block.depth > 1:
            found[told].append(block)
    return found


def placed(parts):
    """The page of each heading, by its anchor."""
    for heading in FILE_SECTIONS:
        if heading not in parts:
            raise SystemExit(f"manual: there is no section {heading}")
    pages = {}
    for heading, part in parts.items():
        page = "sunsite-site(5)" if heading in FILE_SECTIONS else "sunsite(1)"
        pages.update({anchor(title(it)): page for it in part if it.form == "heading"})
    return pages


def head(name, what, version, date):
    """How a page begins."""
    word, section = name[:-1].split("(")
    kind = "User Commands" if section == "1" else "File Formats"
    return [f'.TH {word.upper()} {section} "{date}" "sunsite {version}" "{kind}"', ".nh", ".ad l",
            ".SH NAME", f"{word} \\- {what}"]


MODELS = "/usr/share/sunsite/models"
EXAMPLES = f"The files that are called examples/.. here stand in {DOCUMENTS}/examples, and models/ is {MODELS}."
FILES = (
    ("/etc/sunsite/site.toml", "the site file that the unit sunsite.service serves, as sunsite-site(5) has it"),
    ("/etc/sunsite/program.il", "its program"),
    ("/etc/default/sunsite", "more options of serve for that unit, in SERVE_OPTIONS"),
    ("/var/lib/sunsite/state", "its file of set values"),
    ("/run/sunsite/status.json", "its status file"),
)


def command_page(parts, names, version, date):
    """The page of the commands."""
    page = Page("sunsite(1)", names)
    page.lines += head(page.name, "SunSpec Modbus gateway for a solar site", version, date)
    words = [plain(it) for it in parts if is_command(it)]
    page.lines += [".SH SYNOPSIS", bold("sunsite < PROGRAM")]
    for it in words:
        page.lines += [".br", bold(f"sunsite {it}")]
    page.lines += [".br", bold("sunsite [COMMAND] --help"), ".SH DESCRIPTION"]
    for block in parts[""]:
        page.add(block)
    page.lines += [".PP", escaped(EXAMPLES)]
    for block in [it for heading, part in parts.items() if heading and heading not in FILE_SECTIONS for it in part]:
        page.add(block)
    page.lines.append(".SH FILES")
    for path, what in FILES:
        page.lines += [".TP 4", bold(path), escaped(what)]
    page.lines += [".SH SEE ALSO", "\\fBsunsite\\-site\\fR(5)"]
    return page


def file_page(parts, names, version, date):
    """The page of the files."""
    page = Page("sunsite-site(5)", names)
    page.lines += head(page.name, "site files, plant files and control programs of sunsite", version, date)
    page.lines += [".SH DESCRIPTION", "The files that \\fBsunsite\\fR(1) reads. " + escaped(EXAMPLES)]
    for heading in FILE_SECTIONS:
        for block in parts[heading]:
            page.add(block)
    page.lines += [".SH SEE ALSO", "\\fBsunsite\\fR(1)"]
    return page


def pages(text, version, date):
    """The pages that the text of the documents makes, by their files' names, and the documents that they name."""
    parts = sections(text)
    names = Names(placed(parts), set())
    made = {"sunsite.1": command_page(parts, names, version, date), "sunsite-site.5": file_page(parts, names, version, date)}
    return {name: "\n".join(page.lines) + "\n" for name, page in made.items()}, sorted(names.documents)

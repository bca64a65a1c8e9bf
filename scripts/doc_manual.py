"""The parts of the manual pages that are made of other sources. The forms of the commands are those of `help_text`, the definition that
`--help` is proved to print; the code's text is made of it too. The headings of docs/reference/cli.md have to be the same, and so the table of the usage lines and those by which
words are defined. What the manual pages say of commands, statuses, messages and the journal's bytes is said in that page and in
journal-format.md. The table of keys in docs/reference/board.md is the list that the board itself shows."""

import json
import os
import re

HELP, PRINTED = "crates/apron_run/specs/Print.antt", "crates/apron_run/src/print.rt"
COMMANDS = "docs/reference/cli.md"
USAGE = "crates/apron/src/forms.rt"
TABLES = ("crates/apron_run/specs/Words.antt", "crates/apron_serve/specs/Orders.antt")
MANUALS = ("packaging/man/apron.1", "packaging/man/apron-demo.1", "packaging/man/apron-journal.5")
KEYS, BOARD = "board/keys.js", "docs/reference/board.md"
# What `main` takes off before the words are read as the tables of the definitions have them.
TAKEN_OFF = {"ADDRESS", "WORKERS", "SCREENADDRESS", "SCREENS", "JOURNAL"}
FORM = re.compile(r"^apron ((?:--)?[a-z]+(?: (?:[A-Z]+|screen))*)(?= |$)", re.M)
TEXT = re.compile(r'(fn help\(\) .*?\{\n    b")[^"]*(?="\n\})', re.S)
PART = re.compile(r'(\.\\" Made of (.+?)(?:, (.+?))? by scripts/manuals\.\n).*?(\.\\" End\.\n)', re.S)
TABLE = re.compile(r"(<!-- scripts/manuals keys -->\n).*?(<!-- end of the table -->\n)", re.S)
INLINE = re.compile(r"`(?P<code>[^`]+)`|\*\*(?P<bold>.+?)\*\*|\*(?P<term>[^*]+)\*|\[(?P<link>(?:[^\[\]]|`[^`]*`)+)\]\([^)]*\)")


def read(top, path):
    with open(os.path.join(top, path), encoding="utf-8") as file:
        return file.read()


def help_text(top):
    """What --help prints, as a text in quotes has it."""
    return re.search(r'^help_text =\n\s*codes "(.*)"$', read(top, HELP), re.M)[1]


def forms(top):
    """Each command with its arguments, in the order of --help."""
    return FORM.findall(help_text(top).replace("\\n", "\n"))


def usage_forms(top):
    """Each command with its arguments, as the table of the usage lines has it: without what stands in brackets, and with it."""
    for first, wanted, counts in re.findall(r'first: "(.+?)",\s+wanted: "(.+?)",\s+does: ".+?",\s+counts: &\[(.+?)\],', read(top, USAGE)):
        arguments = wanted.replace("no other words", "")
        made = dict.fromkeys((re.sub(r" \[.*?\]", "", arguments), re.sub(r"[\[\]]", "", arguments)))
        if [len(it.split()) for it in made] != [int(it) for it in counts.split(",")]:
            yield f"{first} with counts {counts}"
        yield from (f"{first} {it}".strip() for it in made)


def table_rows(top):
    """The rows of the tables of the definitions: a first word, and how many tests come after it."""
    for path in TABLES:
        for word, tests in re.findall(r'\(\s*codes "(\S+)",\s+([^\[]*)\[\],', read(top, path)):
            yield word, tests.count("∷")


def form_faults(top):
    """The tables that have other forms than `--help`."""
    listed = forms(top)
    if (usage := list(usage_forms(top))) != listed:
        yield f"{USAGE}: its forms are {usage}, and those of --help {listed}"
    words = [form.split() for form in listed]
    counted = sorted((first, len([it for it in rest if it not in TAKEN_OFF])) for first, *rest in words)
    if (rows := sorted(table_rows(top))) != counted:
        yield f"{' and '.join(TABLES)}: their forms with as many words are {rows}, and those of --help {counted}"


def roff(text):
    """A text as troff has it."""
    return text.replace("\\", "\\e").replace("-", "\\-")


def inline(text):
    """A text with code, bold, terms and links in it."""
    made, place = "", 0
    for found in INLINE.finditer(text):
        kind, inner = found.lastgroup, found[found.lastgroup]
        inner = inline(inner) if kind in ("bold", "link") else roff(inner)
        made += roff(text[place:found.start()]) + {"code": rf"\fB{inner}\fR", "bold": rf"\fB{inner}\fR",
                                                   "term": rf"\fI{inner}\fR", "link": inner}[kind]
        place = found.end()
    return made + roff(text[place:])


def line_of(text):
    """A line that troff does not read as a request."""
    return re.sub(r"^(?=[.'])", r"\\&", text)


def row(cells, names):
    """A row of a table as a tagged paragraph; what stands between its first cell and its last has its column's name before it."""
    between = "".join(f"{name} {cell}. " for name, cell in zip(names[1:-1], cells[1:-1]))
    return f".TP\n\\fB{inline(cells[0])}\\fR\n{line_of(inline(between + cells[-1]))}"


def table(lines):
    rows = [[cell.strip() for cell in re.split(r"(?<!\\)\|", line)[1:-1]] for line in lines]
    return [row(cells, rows[0]) for cells in rows[2:]]


def block(text):
    """A block of a page, between empty lines."""
    lines = text.split("\n")
    if lines[0].startswith("```"):
        return [".PP\n.nf", *(line_of(roff(line)) for line in lines[1:-1]), ".fi"]
    if lines[0].startswith("|"):
        return table(lines)
    if lines[0].startswith("- "):
        return [f".IP \\(bu 2\n{line_of(inline(line[2:]))}" for line in lines]
    if heading := re.fullmatch(r"### `(\S+)(?: (.*))?`", text):
        return [f".SS {roff(heading[1])} {heading[2] or ''}".rstrip()]
    return [f".PP\n{line_of(inline(' '.join(lines)))}"]


def section(page, title):
    """The blocks of a section of a page."""
    text = re.search(rf"^## {re.escape(title)}\n\n(.*?)(?=^## |\Z)", page, re.M | re.S)[1]
    return re.findall(r"^```.*?^```$|^(?:(?!```)[^\n]+\n?)+", text, re.M | re.S)


def synopsis(top):
    """The forms of the commands, arguments in italics."""
    made = (rf"\fBapron {word}\fR" + (rf" \fI{rest}\fR" if rest else "") for word, _, rest in map(lambda it: it.partition(" "), forms(top)))
    return ["\n.br\n".join(made).replace(" screen ", r" \fBscreen\fI ")]


def made(top, source, title):
    """The lines of a part of a manual page."""
    if source == "--help":
        return synopsis(top)
    return [line for text in section(read(top, source), title) for line in block(text.strip("\n"))]


def manual(top, path):
    """A manual page with its parts as they have to be."""
    return PART.sub(lambda it: it[1] + "\n".join(made(top, it[2], it[3])) + "\n" + it[4], read(top, path))


def board(top):
    """The board's page with its table of keys as it has to be."""
    rows = re.search(r"^const KEYS = (\[.*?\n\]);$", read(top, KEYS), re.M | re.S)[1]
    lines = [f"| `{key}` | {words} |\n" for key, words in json.loads(re.sub(r",(?=\s*\])", "", rows))]
    return TABLE.sub(lambda it: it[1] + "\n| Key | What it does |\n|---|---|\n" + "".join(lines) + "\n" + it[2], read(top, BOARD))


def printed(top):
    """The code that prints --help, as it has to be."""
    return TEXT.sub(lambda it: it[1] + help_text(top), read(top, PRINTED))


def made_pages(top):
    """The pages and the code with parts that are made, as they have to be."""
    return {**{path: manual(top, path) for path in MANUALS}, BOARD: board(top), PRINTED: printed(top)}


def manual_faults(top):
    """The parts that are not what they are made of."""
    headings = re.findall(r"^### `(.+?)`$", read(top, COMMANDS), re.M)
    if headings != forms(top):
        yield f"{COMMANDS}: its commands are {headings}, and those of --help {forms(top)}"
    yield from form_faults(top)
    for path, text in made_pages(top).items():
        if text != read(top, path):
            yield f"{path}: a part is not what it is made of; run scripts/manuals"


def write_manuals(top):
    for path, text in made_pages(top).items():
        with open(os.path.join(top, path), "w", encoding="utf-8") as file:
            file.write(text)

"""The contracts of the crates as the sources have them: public calls with their clauses, and the claims of guarantees.md that cite them."""
import os
import re
from typing import NamedTuple

TOP = os.path.dirname(os.path.dirname(os.path.abspath(__file__)))
GUARANTEES = "docs/assurance/guarantees.md"
BLOCK = re.compile(r"(?:impl|(?:pub )?trait)\b")
CALL = re.compile(r"( *)(?:pub )?fn (\w+)")
CLAUSE = re.compile(r" +(ensures|requires|measure|decreases) (\w+)")
# The last line of the head of a call without clauses.
BODY = re.compile(r"^ {0,4}(?:\)|pub |fn ).*\{\}?$")
CITED = re.compile(r"`(\w+)` `([\w: ]+)`: ((?:`\w+`(?:, )?)+)")


class Crate(NamedTuple):
    """A crate: those that it stands on, the part of crates.txt that it is in, and its line there."""
    below: list
    part: str
    line: str


class Clause(NamedTuple):
    """A clause by its name, with its text and the comment before it."""
    name: str
    text: str
    comment: str


class Call(NamedTuple):
    """A public call: its crate, its file, its name, the lines of its doc comment, and its clauses."""
    crate: str
    path: str
    name: str
    doc: list
    clauses: list


def text_of(path):
    with open(os.path.join(TOP, path), encoding="utf-8") as file:
        return file.read()


def crates():
    """The crates in the order of crates.txt."""
    found, part = {}, ""
    for line in text_of("crates.txt").split("\n"):
        if line.startswith("## "):
            part = line[3:]
        elif ":" in line and not line.startswith("#"):
            name, _, rest = line.partition(":")
            found[name.split()[0]] = Crate(rest.split(), part, line)
    return found


def files_of(crate):
    """The files of code of a crate, without its tests."""
    for folder, folders, names in sorted(os.walk(os.path.join(TOP, "crates", crate, "src"))):
        folders[:] = [name for name in folders if name != "tests"]
        for name in sorted(names):
            if name.endswith(".rt") and name != "tests.rt":
                yield os.path.relpath(os.path.join(folder, name), TOP)


def exports(crate):
    """The names that a crate shows, and those of its public modules."""
    path = f"crates/{crate}/src/lib.rt"
    text = text_of(path) if os.path.exists(os.path.join(TOP, path)) else ""
    names = re.findall(r"\w+", " ".join(re.findall(r"^pub use \w+((?:::\w+)*(?:::\{.*?\})?);", text, re.M | re.S)))
    return set(names), set(re.findall(r"^pub mod (\w+);", text, re.M))


def without_generics(text):
    """The text without what is between < and >."""
    kept, depth = [], 0
    for place, letter in enumerate(text):
        depth += letter == "<"
        if depth == 0:
            kept.append(letter)
        depth -= letter == ">" and text[place - 1] != "-"
    return "".join(kept)


def owner_of(head):
    """What a block of calls belongs to: `Type`, `Trait`, or `Type as Trait`; and the name that has to be public."""
    words = without_generics(head.split("{")[0].split(" where ")[0]).replace("pub ", "").split()
    if words[0] == "trait":
        name = words[1].rstrip(":")
        return name, name
    if "for" in words:
        at = words.index("for")
        kind = words[at + 1].lstrip("&").split("::")[-1]
        return f"{kind} as {words[at - 1].split('::')[-1]}", kind
    return words[1], words[1]


def clauses_in(lines):
    """The clauses of the head of a call, each with the comment right before it."""
    found, text, comment = [], None, []
    for line in lines:
        begins = CLAUSE.match(line)
        if line.strip().startswith("//"):
            text = None
            comment.append(line.strip().lstrip("/ "))
        elif begins:
            text = [line] if begins[1] == "ensures" else None
            if text:
                found.append((begins[2], text, " ".join(comment)))
            comment = []
        elif text:
            text.append(line)
    return [Clause(name, "\n".join(text).rstrip(), comment) for name, text, comment in found]


def head_of(lines, at, indent):
    """The lines of the head of the call that begins at this line, up to its body or its semicolon."""
    depth = 0
    for end in range(at, len(lines)):
        line = lines[end]
        if depth == 0 and (line.startswith(indent + "{") or BODY.search(line)):
            return lines[at:end]
        depth += line.count("{") - line.count("}")
        if depth == 0 and line.endswith(";"):
            return lines[at:end + 1]
    return lines[at:]


def doc_before(lines, at):
    """The doc comment right before a line."""
    found = []
    while at > 0 and lines[at - 1].strip().startswith(("///", "#[")):
        at -= 1
        if lines[at].strip().startswith("///"):
            found.append(lines[at].strip()[3:].strip())
    return found[::-1]


def calls_in(crate, path, shown, modules):
    """The public calls of a file that have clauses."""
    lines = text_of(path).split("\n")
    module = path.split("/src/")[1].split("/")[0].removesuffix(".rt")
    owner, public, trait = "", "", False
    for at, line in enumerate(lines):
        if BLOCK.match(line):
            end = next(it for it in range(at, len(lines)) if "{" in lines[it])
            owner, public = owner_of(" ".join(lines[at:end + 1]))
            trait = line.startswith(("pub trait", "trait")) or " as " in owner
        elif line == "}":
            owner, public, trait = "", "", False
        found = CALL.match(line)
        if not found or (found[1] == "") != (owner == "") or len(found[1]) > 4:
            continue
        if not (trait or line.strip().startswith("pub ")) or (public or found[2]) not in shown and module not in modules:
            continue
        clauses = clauses_in(head_of(lines, at, found[1]))
        if clauses:
            yield Call(crate, path, f"{owner}::{found[2]}" if owner else found[2], doc_before(lines, at), clauses)


def calls_of(crate):
    shown, modules = exports(crate)
    return [call for path in files_of(crate) for call in calls_in(crate, path, shown, modules)]


def claims():
    """The claims of guarantees.md: by its name, what it says, and the crate, call and clauses of each citation."""
    found = {}
    for line in text_of(GUARANTEES).split("\n"):
        row = re.fullmatch(r"\| \*\*([\w -]+)\*\*[.:] (.*) \| (.*) \|", line)
        if row:
            cited = [(crate, call, re.findall(r"\w+", names)) for crate, call, names in CITED.findall(row[3])]
            found[row[1].lower().replace(" ", "-")] = (row[2], cited)
    return found

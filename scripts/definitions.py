"""The definitions of the crates as the sources have them, and which of them others rest on."""
import os
import re

from contracts import TOP, text_of

NAME = re.compile(r"[A-Za-z_][\w'-]*")
IMPORT = re.compile(r"^\s*(?:ghost )?use (Rattle\.[\w.]+?)(?:\.\{(.*?)\})?(?: as (\w+))?;?\s*$", re.M)
DEFINED = re.compile(
    r"^ *(?:(?:abbrev|unfoldable|pub|private) )*(?:(?:record|data) ([A-Za-z_][\w'-]*)|([A-Za-z_][\w'-]*|◌\S+◌)(?: :|\n *:))", re.M)
ITEM = re.compile(r"^(?:pub(?:\(crate\))? )?(?:struct|enum|const) (\w+)", re.M)


def without_comments(text):
    return "\n".join(it.split("--")[0] for it in text.split("\n"))


def named_in(text, known):
    """Returns which of these names a text writes: words, and operators as `◌>>=◌`, which `do` writes as `←`."""
    words = set(NAME.findall(text))
    return {it for it in known if it in words or "◌" in it and (it.strip("◌") in text or it == "◌>>=◌" and "←" in text)}


def imports_of(text):
    """Returns, by the name that the text uses, the module and the name there of all that it imports ("" for a whole module)."""
    found = {}
    for module, names, alias in IMPORT.findall(text):
        if not names:
            found[alias or module.rsplit(".", 1)[1]] = (module, "")
        for name in filter(None, (it.strip() for it in names.split(","))):
            first, _, second = name.partition(" as ")
            found[second or first] = (module, first)
    return found


class Module:
    """A file of definitions: paragraphs, of which each has its comment and its definition, by the names that it defines."""

    def __init__(self, path):
        text = text_of(path)
        self.imports = imports_of(text)
        self.paragraphs, self.named = [], {}
        header = ""
        for paragraph in re.split(r"\n\s*\n", text):
            body = without_comments(paragraph)
            lines = [it for it in body.split("\n") if it.strip() and not IMPORT.match(it)]
            if not lines:
                continue
            opens = [it for it in lines if it.lstrip().startswith("module _")]
            header = opens[-1] if opens else header if lines[0].startswith(" ") else ""
            number = len(self.paragraphs)
            self.paragraphs.append((paragraph, "\n".join([header, *lines])))
            if opens and lines[0] == opens[0]:
                del lines[: 1 + next(at for at, it in enumerate(lines) if it.endswith(" where"))]
            # A field names nothing: whose it is, the type of what has it says.
            is_record = lines and re.match(r" *(?:pub )?record ", lines[0])
            for kept, declared in DEFINED.findall(lines[0] if is_record else "\n".join(lines)):
                self.named.setdefault(kept or declared, number)
            # The constructors of a type.
            for names in [] if is_record else re.findall(r"^ +((?!(?:abbrev|unfoldable|pub|private|record|data) )\w+(?: \w+)*) :", "\n".join(lines), re.M):
                for name in names.split():
                    self.named.setdefault(name, number)


class Source:
    """A file of code: the types and constants that it declares."""

    def __init__(self, path):
        text = text_of(path)
        self.items = {}
        for found in ITEM.finditer(text):
            end = re.search(r"^\}|;$", text[found.start() :], re.M)
            item = text[found.start() : found.start() + end.end()]
            self.items[found.group(1)] = "\n".join(it for it in item.split("\n") if not it.lstrip().startswith("//"))


modules, sources = {}, {}


def module_at(name):
    """Returns the definitions of a module of the repository's own, if it is one."""
    _, crate, part, *path = name.split(".")
    place = f"{TOP}/crates/{crate}/specs/{'/'.join(path)}.antt"
    if part != "specs" or not os.path.isfile(place):
        return None
    return modules.setdefault(name, modules.get(name) or Module(place))


def declared_at(name):
    """Returns the crate, the file and the item that a module of declared types stands for, if it is one of the repository's."""
    parts = name.split(".")
    if parts[2:4] != ["specs", "declared"] or not os.path.isdir(f"{TOP}/crates/{parts[1]}"):
        return None
    path = [it for it in parts[4:] if it not in ("TheVariants", "TheConstants")]
    for cut in range(len(path), 0, -1):
        place = f"{TOP}/crates/{parts[1]}/src/{'/'.join(path[:cut])}.rt"
        if os.path.isfile(place):
            return parts[1], place, path[cut] if cut < len(path) else ""
    return None


class Reach:
    """What some clauses rest on: paragraphs of definitions by module and number, types of the code, and modules of the libraries."""

    def __init__(self):
        self.read, self.types, self.libraries = {}, {}, set()

    def add(self, path, text):
        """Adds all that this text of a file of code names."""
        imports = imports_of(text_of(path))
        for it in sorted(named_in(text, imports)):
            self.visit(imports[it][0], imports[it][1] or it)

    def visit(self, module, name):
        """Adds a definition of a module, and what it rests on."""
        item, file = declared_at(module), module_at(module)
        if item:
            self.visit_item(item[0], item[1], item[2] or name)
            return
        if not file:
            self.libraries.add(module)
            return
        number = file.named.get(name)
        if number is None or (module, number) in self.read:
            return
        paragraph, text = file.paragraphs[number]
        self.read[module, number] = paragraph
        for it in sorted(named_in(text, file.named)):
            self.visit(module, it)
        for it in sorted(named_in(text, file.imports.keys() - file.named.keys())):
            self.visit(file.imports[it][0], file.imports[it][1] or it)

    def visit_item(self, crate, place, name):
        source = sources.setdefault(place, sources.get(place) or Source(place))
        if name in source.items:
            self.types.setdefault((crate, name), source.items[name])

    def lines(self, crate):
        """How many lines of definitions, and of types, of a crate it has."""
        definitions = sum(lines_of(text) for (module, _), text in self.read.items() if module.split(".")[1] == crate)
        return definitions, sum(lines_of(text) for (owner, _), text in self.types.items() if owner == crate)


def lines_of(paragraph):
    """How many lines a paragraph has."""
    return paragraph.strip("\n").count("\n") + 1


def all_lines(crate):
    """How many lines the definitions of a crate have, without imports and what is between paragraphs."""
    folder = f"{TOP}/crates/{crate}/specs"
    files = [os.path.join(at, name) for at, _, names in os.walk(folder) for name in names if name.endswith(".antt")]
    return sum(lines_of(paragraph) for path in files for paragraph, _ in Module(path).paragraphs)

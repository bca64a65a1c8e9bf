"""The documents as pages: their links and headings, what they mention, and the blocks of commands in them."""

import os
import re
from typing import NamedTuple

FENCE = re.compile(r"^(\s*)(```+|~~~+)\s*(\S*)\s*$")
HEADING = re.compile(r"^#{1,6}\s+(.*?)\s*#*\s*$")
LINK = re.compile(r"\[((?:[^\[\]]|\[[^\]]*\])*)\]\(\s*<?([^)\s>]+)>?(?:\s+\"[^\"]*\")?\s*\)")
MENTION = re.compile(r"\b[A-Za-z][\w-]*\.md\b")
SHELLS, SHOWN = ("sh", "bash"), "output"
# What makes a block without a language one of commands: the first word of its first line.
COMMANDS = re.compile(
    r"(?:\./)?(?:apron|curl|(?:examples|scripts|trials|measure)/\S+|sudo|apt|apt-get|systemctl|nginx|openssl|cp|mkdir|install|runuser|nc)\b")
# A block that cannot be run on any machine, or not from a package, says so in its first line.
NEEDS = re.compile(r"# needs (systemd|a public name|the toolchain|a checkout)\b.*")


# A part of a page that a script makes.
MADE = re.compile(r"<!-- scripts/\w+ \w+ -->.*?<!-- end of the table -->", re.S)


class Block(NamedTuple):
    """Commands of a page, from a line on, and what they have to print, if the page shows it."""
    line: int
    text: str
    shown: str
    needs: str


class Page:
    """A page at a path from the top of the repository."""

    def __init__(self, top, path):
        self.path = path
        with open(os.path.join(top, path), encoding="utf-8") as file:
            self.text = file.read()
        self.prose, self.fences = [], []
        self.read()

    def read(self):
        """Tells prose from blocks: the lines of prose with their numbers, and the blocks with their language."""
        fence, indented = None, None
        for number, line in enumerate(self.text.split("\n"), 1):
            mark = FENCE.match(line)
            if fence is not None:
                if mark and mark[2].startswith(fence[3]) and not mark[3]:
                    fence = None
                else:
                    fence[2].append(line.removeprefix(fence[4]))
            elif mark:
                fence = [number + 1, mark[3], [], mark[2], mark[1]]
                self.fences.append(fence)
            elif line.startswith("    ") and (indented or not self.prose or not self.prose[-1][1].strip()):
                if indented is None:
                    indented = [number, None, [], "", ""]
                    self.fences.append(indented)
                indented[2].append(line[4:])
            else:
                indented = None
                self.prose.append((number, line))

    def anchors(self):
        """The anchors of the headings, as they are made from their words."""
        found, counts = set(), {}
        for _, line in self.prose:
            if heading := HEADING.match(line):
                words = re.sub(r"\[([^\]]*)\]\([^)]*\)", r"\1", heading[1])
                slug = re.sub(r"[^\w\- ]", "", words.lower()).replace(" ", "-")
                counts[slug] = counts.get(slug, -1) + 1
                found.add(slug if counts[slug] == 0 else f"{slug}-{counts[slug]}")
        return found

    def links(self):
        """Each link with its line."""
        for number, line in self.prose:
            yield from ((number, it[2]) for it in LINK.finditer(re.sub(r"`[^`]*`", lambda it: "x" * len(it[0]), line)))

    def mentions(self):
        """Each page that is mentioned outside a link, with its line."""
        for number, line in self.prose:
            yield from ((number, name) for name in MENTION.findall(LINK.sub("", line)))

    def blocks(self):
        """The blocks of commands. A block with the language 'output' right after one shows what that prints."""
        for place, (line, language, lines, _, _) in enumerate(self.fences):
            text = "\n".join(lines).strip("\n")
            if language in SHELLS or not language and COMMANDS.match(text):
                after = self.fences[place + 1] if place + 1 < len(self.fences) else None
                follows = after is not None and after[1] == SHOWN and after[0] <= line + len(lines) + 3
                needs = NEEDS.fullmatch(text.split("\n")[0])
                yield Block(line, text, "\n".join(after[2]) if follows else None, needs and needs[1])


def pages_of(top):
    """The pages: README and CONTRIBUTING, all under docs/, and those of the examples."""
    paths = [name for name in ("README.md", "CONTRIBUTING.md", "examples/README.md") if os.path.exists(os.path.join(top, name))]
    for folder, _, names in os.walk(os.path.join(top, "docs")):
        paths += [os.path.relpath(os.path.join(folder, name), top) for name in names if name.endswith(".md")]
    return [Page(top, path) for path in sorted(paths)]


def link_faults(top, pages):
    """The links that lead nowhere, and the pages that are mentioned without a link."""
    anchors = {page.path: page.anchors() for page in pages}
    for page in pages:
        for line, link in page.links():
            if re.match(r"[a-z]+:", link):
                continue
            path, _, anchor = link.partition("#")
            target = os.path.normpath(os.path.join(os.path.dirname(page.path), path)) if path else page.path
            if not os.path.exists(os.path.join(top, target)):
                yield f"{page.path}:{line}: {link} leads to nothing"
            elif anchor and anchor not in anchors.get(target, ()):
                yield f"{page.path}:{line}: {link}: that page has no such heading"
        yield from (f"{page.path}:{line}: {name} is mentioned without a link" for line, name in page.mentions())


def size_words(pages, limits):
    """Warnings and faults of pages by their size, without what scripts make. Limits are rows of a pattern of paths, the bytes above which it is a
    warning, and those above which it is a fault. A page without a row is a fault."""
    sizes = {page.path: len(MADE.sub("", page.text).encode()) for page in pages}
    taken, warnings, faults = set(), [], []
    for pattern, wanted, most in limits:
        paths = [path for path in sizes if path not in taken and re.fullmatch(pattern, path)]
        taken.update(paths)
        size = sum(sizes[path] for path in paths)
        if size > most:
            faults.append(f"{', '.join(paths)}: {size} bytes, and the most is {most}")
        elif size > wanted:
            warnings.append(f"{', '.join(paths)}: {size} bytes, more than {wanted}; above {most} it fails")
    return warnings, faults + [f"{path}: it has no limit" for path in sizes if path not in taken]

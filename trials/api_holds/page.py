"""Whether the page for authors of clients has what the API description has: a section for each operation, which names each of its refusals
with its status, and a table of those that any operation may give. And a table of all replies, made of the description."""

import re

HEADING = re.compile(r"^## ((?:GET|POST) /\S+|Refusals)$", re.MULTILINE)
# The refusals that stand once, in the table of all operations.
COMMON = {"head", "encoding", "large", "length", "route", "method", "seen", "json", "ahead", "full", "keeper", "memory"}


def sections_of(text):
    """The sections of the page by their headings, in which parameters have no names."""
    pieces = HEADING.split(text)
    return {unnamed(name): body.partition("\n## ")[0] for name, body in zip(pieces[1::2], pieces[2::2])}


def unnamed(name):
    return re.sub(r"\{\w+\}", "{}", name)


def refusals_of(description, operation):
    """The refusals of an operation, each with its status; that of a message has two words."""
    for status, response in operation.responses.items():
        for content in response["content"].values():
            yield from ((status, word) for word in description.words_of(content["schema"]) if word)


def table_of_replies(description):
    """The rows of a table of all replies, in the order of the description."""
    yield from ("| Endpoint | Status | `error` | Meaning |", "|---|---|---|---|")
    for operation in description.operations:
        for status, response in sorted(operation.responses.items()):
            words = sorted({f"`{word}`" for it in response["content"].values() for word in description.words_of(it["schema"]) if word})
            meaning = " ".join(response["description"].split())
            yield f"| {operation.method} {operation.path} | {status} | {', '.join(words)} | {meaning} |"


def page_faults(description, path):
    """What the page at a path lacks, or has of an operation that is not described."""
    with open(path, encoding="utf-8") as file:
        sections = sections_of(file.read())
    common = sections.pop("Refusals", "")
    names = {unnamed(f"{it.method} {it.path}"): it for it in description.operations}
    yield from (f"http.md: there is no section for {it}" for it in names.keys() - sections.keys())
    yield from (f"http.md: {it} is not described" for it in sections.keys() - names.keys())
    for name, operation in names.items():
        for status, words in refusals_of(description, operation):
            section = common if words in COMMON else sections.get(name, "")
            if status not in section or any(f"`{word}`" not in section for word in words.split()):
                yield f"http.md: the section for {name} does not name {status} {words}"

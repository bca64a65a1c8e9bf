"""Requests and replies as bytes, read apart from the program: heads as HTTP/1.1 has them, and JSON texts as docs/reference/http.md
tells them."""

import decimal
import json
import re
from typing import NamedTuple

MOST_HEAD = 8192
TOKEN = rb"[!#$%&'*+.^_`|~0-9A-Za-z-]+"
REQUEST_LINE = re.compile(rb"(%s) ([^\x00-\x20\x7f]+) HTTP/1\.([01])" % TOKEN)
FIELD = re.compile(rb"(%s):[ \t]*([^\x00-\x08\x0a-\x1f\x7f]*)" % TOKEN)
REPLY_LINE = re.compile(rb"HTTP/1\.1 (\d{3}) [A-Za-z ]+")
TEXT = re.compile(r'"(?:[^"\\]|\\.)*"', re.DOTALL)
SURROGATES = re.compile(r"\\u[dD][89abAB][0-9a-fA-F]{2}\\u[dD][c-fC-F][0-9a-fA-F]{2}|\\\\|(\\u[dD][89a-fA-F][0-9a-fA-F]{2})")
GREATEST_DOUBLE = decimal.Decimal("1.7976931348623158e308")


class NotJson(Exception):
    """A body is no JSON text of the form that bodies have."""


class Request(NamedTuple):
    """A request. The target and the method are None if its head is malformed."""
    method: str
    target: str
    fields: tuple
    body: bytes
    head_bytes: int
    version: str

    def values(self, name):
        return [value for key, value in self.fields if key.lower() == name.lower()]

    def closes(self):
        """Whether the server closes the connection after a whole request."""
        parts = [part.strip(" ").lower() for value in self.values("Connection") for part in value.split(",")]
        return self.version == "0" or "close" in parts


class Reply(NamedTuple):
    code: int
    fields: dict
    media: str
    body: bytes


def malformed(head):
    return Request(None, None, (), b"", len(head), "1")


def head_of(head):
    """The request of a head without its empty line, and with no body yet."""
    first, *lines = [line.removesuffix(b"\r") for line in head.lstrip(b"\r\n").split(b"\n")]
    line, fields = REQUEST_LINE.fullmatch(first), [FIELD.fullmatch(it) for it in lines]
    if line is None or None in fields:
        return malformed(head)
    try:
        target = line[2].decode()
    except UnicodeDecodeError:
        return malformed(head)
    pairs = tuple((it[1].decode(), it[2].rstrip(b" \t").decode("latin-1")) for it in fields)
    return Request(line[1].decode(), target, pairs, b"", 0, line[3].decode())


def read_request(stream, at):
    """The request that begins at a place of a stream, and the place after it; None where no whole head is left."""
    begin = at
    while stream[begin:begin + 1] in (b"\r", b"\n"):
        begin += 1
    end = re.compile(rb"\r?\n\r?\n").search(stream, begin)
    if end is None:
        return (malformed(stream[at:]) if len(stream) > begin else None), len(stream)
    request = head_of(stream[begin:end.start()])
    lengths = request.values("Content-Length")
    length = int(lengths[0]) if len(lengths) == 1 and re.fullmatch("[0-9]{1,10}", lengths[0]) else 0
    body = stream[end.end():end.end() + length]
    return request._replace(body=body, head_bytes=end.end() - at), end.end() + length


def requests_in(stream):
    """The requests of a stream, one after the other."""
    at = 0
    while at < len(stream):
        request, at = read_request(stream, at)
        if request is not None:
            yield request


def replies_in(output):
    """The replies of an output, one after the other."""
    at = 0
    while at < len(output):
        end = output.index(b"\r\n\r\n", at)
        first, *lines = output[at:end].split(b"\r\n")
        fields = dict(line.decode().split(": ", 1) for line in lines)
        to = end + 4 + int(fields["Content-Length"])
        if not REPLY_LINE.fullmatch(first) or to > len(output):
            raise ValueError(f"this is no reply: {output[at:at + 100]}")
        yield Reply(int(first[9:12]), fields, fields["Content-Type"], output[end + 4:to])
        at = to


def whole_of(digits):
    """A number without fraction and exponent. One that has a sign, or is beyond 64 bits, is none of the whole numbers of a body."""
    return number_of(digits) if digits.startswith("-") or len(digits) > 20 else int(digits)


def number_of(digits):
    number = decimal.Decimal(digits)
    if abs(number) >= GREATEST_DOUBLE:
        raise NotJson("a number is too great")
    return number


def no_constant(_):
    raise NotJson("a word is no JSON")


def json_of(body, most_depth):
    """The value of a body. A number that is written with a sign, a fraction or an exponent is not whole."""
    try:
        text = body.decode()
        value = json.loads(text, parse_int=whole_of, parse_float=number_of, parse_constant=no_constant)
    except (ValueError, RecursionError, decimal.DecimalException) as fault:
        raise NotJson(str(fault)) from fault
    depth = deepest = 0
    for bracket in re.findall(r"[\[\]{}]", TEXT.sub('""', text)):
        depth += 1 if bracket in "[{" else -1
        deepest = max(deepest, depth)
    if deepest > most_depth:
        raise NotJson("it is nested too deep")
    if any(it[1] for written in TEXT.findall(text) for it in SURROGATES.finditer(written)):
        raise NotJson("half a surrogate pair stands alone")
    return value

"""Requests that come byte by byte, many in one packet, at their limits, or refused; and on what their connection then is."""

import contextlib
import statistics
import time

from shared.served import Cut, request
from serve_peers.server import MOMENT, VERSION, goes_on, is_broken, is_closed, put, version_at, visit

MOST_HEAD = 8192
MOST_BODY = 65536


def single_bytes(serving):
    """A request that comes byte by byte, each in a packet of its own, is one request."""
    with serving() as server, server.link() as link:
        for text in (visit("V1"), put(1, 1), VERSION):
            for place in range(len(text)):
                link.send(text[place:place + 1])
            reply = link.reply()
            assert reply.code == 200, reply
        assert reply.version == 2
        goes_on(server)


def pipelined(serving):
    """Requests in one packet are answered one after the other, in their order."""
    with serving() as server, server.link() as link:
        link.send(visit("V1") + b"".join(put(draft, draft, ("N1", "N2")[draft % 2]) + VERSION for draft in range(1, 200)))
        assert link.reply().version == 1
        for draft in range(1, 200):
            for _ in range(2):
                reply = link.reply()
                assert reply.code == 200 and reply.body == b'{"version":%d}' % (draft + 1), reply


def kept_alive(serving):
    """A connection serves a thousand requests, and stays while its client is silent."""
    with serving() as server, server.link() as link:
        for _ in range(1000):
            assert version_at(link) == 0
        time.sleep(MOMENT)
        goes_on(server)
        assert version_at(link) == 30


def closing(serving):
    """Behind a request of HTTP/1.0, and behind one that asks for it, the connection is closed; what stands behind is not taken."""
    for version, lines in (("1.0", ()), ("1.1", ("Connection: close",)), ("1.0", ("Connection: keep-alive",))):
        with serving(workers=1) as server:
            with server.link() as link:
                reply = link.ask(request("GET", "/version", lines=lines, version=version))
                assert reply.code == 200 and not reply.closes, reply
                is_closed(link)
            with server.link() as link:
                link.send(request("GET", "/version", lines=lines, version=version) + visit("V1"))
                assert link.reply().code == 200
            with server.link() as link:
                assert version_at(link) == 0, "a request behind the last one was taken"


def greatest(serving):
    """A head of 8,192 bytes and a body of 65,536 are taken."""
    with serving() as server, server.link() as link:
        assert link.ask(visit("V1")).code == 200
        text = put(1, 1, pad=MOST_BODY)
        assert text.endswith(b" }") and b"Content-Length: 65536\r\n" in text
        assert link.ask(text).body == b'{"version":2}'
        empty = len(request("GET", "/version", lines=["A: "]))
        assert link.ask(request("GET", "/version", lines=["A: " + "b" * (MOST_HEAD - empty)])).version == 2
        assert link.ask(request("POST", "/mvt", b"x" * MOST_BODY)).body == b'{"error":"mvt","fault":"long"}'


def refused(serving):
    """A head that is refused is told so, and the connection closed; the worker is free again."""
    heads = {
        b"GET  / HTTP/1.1\r\n\r\n": (400, b'{"error":"head"}'),
        b"GET / HTTP/1.1\r\nA: " + b"b" * MOST_HEAD: (400, b'{"error":"head"}'),
        b"POST /mvt HTTP/1.1\r\n\r\n": (411, b'{"error":"length"}'),
        b"POST /mvt HTTP/1.1\r\nContent-Length: 65537\r\n\r\n": (413, b'{"error":"large"}'),
        b"POST /mvt HTTP/1.1\r\nTransfer-Encoding: chunked\r\n\r\n": (501, b'{"error":"encoding"}')}
    with serving(workers=1) as server:
        for head, (code, body) in heads.items():
            with server.link() as link:
                assert version_at(link) == 0
                reply = link.ask(head)
                assert (reply.code, reply.body, reply.closes) == (code, body, True), reply
                is_broken(link)


def too_large(serving):
    """A peer that sends a body which is too large is told so, though it goes on sending: the worker does not wait for the body."""
    with serving(workers=1) as server:
        with server.link() as link:
            with contextlib.suppress(Cut):
                link.send(b"POST /mvt HTTP/1.1\r\nContent-Length: 100000\r\n\r\n" + b"x" * 100000)
            with contextlib.suppress(Cut):
                assert link.reply().code == 413
        goes_on(server)


def seen_elsewhere(serving):
    """What one client was told is there for each other one, over its own connection."""
    with serving(workers=3) as server, server.link() as first, server.link() as second:
        for number in range(100):
            told = first.ask(visit(f"V{number}")).version
            reply = second.ask(request("GET", "/version", seen=told))
            assert (reply.code, reply.version) == (200, told), reply
        assert second.ask(request("GET", "/version", seen=101)).body == b'{"error":"ahead","version":100}'


def soon(serving):
    """A reply does not wait for the next one, or for the peer's system to say that it got the one before."""
    with serving() as server, server.link() as link:
        times = []
        for _ in range(40):
            begun = time.monotonic()
            link.send(VERSION + VERSION[:9])
            link.reply()
            link.send(VERSION[9:])
            link.reply()
            times.append(time.monotonic() - begun)
        assert statistics.median(times) < 0.035, f"two replies take {statistics.median(times):.3f} s"

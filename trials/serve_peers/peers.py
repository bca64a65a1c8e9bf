"""Peers that vanish, stall, reset their connections, read no replies, or are more than the workers."""

import contextlib

from shared import served
from shared.served import Cut, request
from serve_peers.server import MOMENT, VERSION, goes_on, is_closed, version_at, visit


def vanishes(serving):
    """Peers that close their connections before, in and behind a request leave the one worker free, and nothing of a cut request."""
    with serving(workers=1) as server:
        for sent in (b"", VERSION[:9], visit("V1")[:-1], VERSION, visit("V1")):
            with server.link() as link:
                link.send(sent)
        with server.link() as link:
            assert version_at(link) == 1, "a whole request was not taken, or a cut one was"


def resets(serving):
    """The same with peers that break their connections off."""
    with serving(workers=1) as server:
        for sent in (b"", VERSION[:9], visit("V1")[:-1], VERSION * 300, request("GET", "/chart/1") * 2000):
            link = server.link()
            with contextlib.suppress(Cut):
                link.socket.settimeout(MOMENT)
                link.send(sent)
            link.reset()
        with server.link() as link:
            assert version_at(link) == 0, "a cut request was taken"


def stalls(serving):
    """A peer that stops in the middle of a head or of a body keeps its worker alone, and gets its reply when it goes on."""
    for cut in (9, -1):
        with serving() as server, server.link() as link:
            link.send(visit("V1")[:cut])
            goes_on(server)
            link.send(visit("V1")[cut:])
            assert link.reply().body == b'{"version":31,"visit":31}'


def never_reads(serving):
    """A peer that reads none of its replies keeps its worker alone; and gets them all when it reads at last."""
    with serving() as server, server.link() as link:
        asked, wanted = request("GET", "/chart/1"), 0
        link.socket.settimeout(MOMENT)
        with contextlib.suppress(TimeoutError):
            while True:
                left = asked
                while left:
                    left = left[link.socket.send(left):]
                wanted += 1
        assert wanted > 100, "the peer was not kept from sending"
        goes_on(server)
        link.socket.settimeout(served.PATIENCE)
        versions = []
        for _ in range(wanted):
            reply = link.reply()
            assert reply.body.startswith(b"STAND CHART APR 2026-03-27 VERSION %d\n" % reply.version), reply
            versions.append(reply.version)
            if left:
                link.socket.setblocking(False)
                with contextlib.suppress(BlockingIOError):
                    left = left[link.socket.send(left):]
                link.socket.settimeout(served.PATIENCE)
        assert versions == sorted(versions) and {versions[0], versions[-1]} == {0, 30}, "replies are not those that were owed at their turns"


def never_reads_and_resets(serving):
    """The worker of a peer that read nothing and broke its connection off is free again."""
    with serving(workers=1) as server:
        link = server.link()
        link.socket.settimeout(MOMENT)
        with contextlib.suppress(Cut):
            link.send(request("GET", "/chart/1") * 20_000)
        link.reset()
        goes_on(server)


def half_closed(serving):
    """A peer that says that nothing more comes gets the replies that are specified, and then the end; a cut request has none."""
    for cut in (b"", visit("V2")[:-1]):
        with serving() as server, server.link() as link:
            link.send(visit("V1") + VERSION + cut)
            link.end_input()
            assert [link.reply().version, link.reply().version] == [1, 1]
            is_closed(link)
            goes_on(server)


def one_more(serving):
    """A peer that is one more than the workers waits until one of the others has gone, and is served then."""
    with serving() as server, server.link() as first, server.link() as second:
        assert version_at(first) == version_at(second) == 0
        with server.link(MOMENT) as third:
            try:
                third.ask(VERSION)
                raise AssertionError("three desks are served at once by two workers")
            except Cut:
                pass
            assert version_at(first) == version_at(second) == 0
            second.close()
            third.socket.settimeout(served.PATIENCE)
            assert third.reply().version == 0


def many(serving):
    """A hundred peers that connect at once are all served by two workers, one after the other."""
    with serving() as server, contextlib.ExitStack() as stack:
        links = [stack.enter_context(server.link()) for _ in range(100)]
        for link in links:
            link.send(request("GET", "/version", lines=["Connection: close"]))
        for link in links:
            assert link.reply().version == 0

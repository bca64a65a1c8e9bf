"""What the trials of serve-peers share: a server, what is asked of it, and whether another client goes on."""

import contextlib
import tempfile

from shared import served
from shared.served import LAST, Cut, Server, request

VERSION = request("GET", "/version")
# Longer than a reply takes, if nothing keeps it back; and shorter than what a peer waits.
MOMENT = 0.3


@contextlib.contextmanager
def serving(program, workers=2, connections=served.MOST_CONNECTIONS, host="127.0.0.1"):
    """A server on an empty journal, which is ended behind the trial."""
    with tempfile.TemporaryDirectory() as room:
        server = Server(program, room, workers, connections, host=host)
        server.make_journal()
        server.start()
        try:
            yield server
        finally:
            server.kill()


def visit(name, on=600):
    return request("POST", "/visits", b'{"name":"%s","type":"A320","class":3,"on":%d,"off":%d}' % (name.encode(), on, on + 60))


def put(draft, base, stand="N1", lines=(), version="1.1", pad=0):
    body = b'{"desk":"D","draft":%d,"base":%d,"edits":[{"put":{"visit":1,"part":1,"stand":"%s"}}]' % (draft, base, stand.encode())
    return request("POST", "/commits", body + b" " * max(0, pad - len(body) - 1) + b"}", lines=lines, version=version)


def version_at(link):
    reply = link.ask(VERSION)
    assert reply.code == 200 and reply.body == b'{"version":%d}' % reply.version, reply
    return reply.version


def goes_on(server, count=30):
    """Another client adds a visit and asks, so often, and is answered each time."""
    with server.link() as link:
        begun = version_at(link)
        for number in range(count):
            version = link.ask(visit(f"ON-{begun}-{number}")).version
            assert version_at(link) == version == begun + number + 1, "another desk does not go on"


def is_closed(link):
    """The server has closed the connection, with no byte more."""
    reply = link.reply()
    assert reply is LAST, f"{reply} came, and nothing was owed"


def is_broken(link):
    """The same; the system tells it as a reset where the server had not read all that it was sent."""
    with contextlib.suppress(Cut):
        is_closed(link)

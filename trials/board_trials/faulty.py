"""The address of the trials: that of the demonstration, with faults that can be switched on and off, a clock that can be moved, and a list of
what was asked."""

import http.client
import os
import re
import socket
import sys
import threading
import time
from typing import NamedTuple, Optional

from shared import served

sys.path.insert(0, os.path.join(served.EXAMPLES, "demo-day"))
from address import Address, Exchange

PREFERENCES = os.path.join(served.EXAMPLES, "large", "preferences.csv")
# Pages that a proxy, a gate or a portal may give, and a reply of apron's that is cut.
PORTAL = b"<!DOCTYPE html><title>Sign in</title><p>Please sign in to the network.</p>"
STATUSES = {"401": 401, "403": 403, "404": 404, "500": 500, "502": 502, "503": 503, "504": 504}


class Fault(NamedTuple):
    """What is done to the requests whose method and target the pattern matches, so many times or always."""
    pattern: str
    kind: str
    left: Optional[list]


class MovedClock:
    """The time of the replies' Date: the machine's, so many seconds ahead. wrong is how far it is off beside the page's."""

    def __init__(self, ahead=0.0):
        self.ahead, self.wrong = ahead, 0.0

    def seconds(self):
        return time.time() + self.ahead + self.wrong


class Faulty(Address):
    """Begins to answer at once."""

    def __init__(self, board, server_port, ahead=0.0, training=False):
        super().__init__(0, board, PREFERENCES, MovedClock(ahead), {"X-Training": "yes"} if training else {}, FaultyExchange)
        self.faults, self.asked, self.slow, self.server_at = [], [], 0.0, server_port
        # The client of each request, whatever the page calls itself, as a proxy names it by the user; None leaves the page's name.
        self.desk = None
        self.lead_to(server_port)
        threading.Thread(target=self.serve_forever, args=(0.05,), daemon=True).start()

    @property
    def origin(self):
        return f"http://127.0.0.1:{self.port}"

    def fail(self, pattern, kind, times=None):
        """Switches a fault on: a status, a 'portal', 'other' JSON, one that is 'cut', 'empty' or 'wrong', a body that ends too 'short'; a reply
        that is lost after the server took the request, 'late', or before, 'lost' and 'gone'."""
        self.faults.append(Fault(pattern, kind, None if times is None else [times]))

    def heal(self):
        self.faults, self.slow = [], 0.0

    def fault_of(self, method, target):
        for fault in self.faults:
            if re.search(fault.pattern, f"{method} {target}") and (fault.left is None or fault.left[0] > 0):
                if fault.left is not None:
                    fault.left[0] -= 1
                return fault.kind
        return None

    def end(self):
        self.shutdown()
        self.server_close()
        while not self.links.empty():
            self.links.get().close()


class FaultyExchange(Exchange):
    """A connection of a page, which meets the faults that are on."""

    def hand_on(self, body):
        if self.server.desk is not None:
            del self.headers["X-Desk"]
            self.headers["X-Desk"] = self.server.desk
        kind = self.server.fault_of(self.command, self.path)
        if self.server.slow:
            time.sleep(self.server.slow)
        if kind == "lost":
            self.close_connection = True
        elif kind == "late":
            # Not a closed connection: on one that is kept a browser then sends the request once more by itself.
            self.ask_server(body)
            self.reply(504, PORTAL, {"Content-Type": "text/html"})
        elif kind == "gone":
            self.close_connection = True
            self.connection.shutdown(socket.SHUT_RDWR)
        elif kind is not None:
            self.spoil(kind, body)
        else:
            super().hand_on(body)

    def ask_server(self, body):
        """The body of the server's reply, which does not go on to the page."""
        link = http.client.HTTPConnection("127.0.0.1", self.server.server_at, timeout=served.PATIENCE)
        try:
            fields = {name: self.headers[name] for name in ("X-Seen", "X-Desk") if name in self.headers}
            link.request(self.command, self.path, body if self.command == "POST" else None, fields)
            return link.getresponse().read()
        finally:
            link.close()

    def spoil(self, kind, body):
        html = {"Content-Type": "text/html"}
        if kind == "portal":
            self.reply(200, PORTAL, html)
        elif kind == "other":
            self.reply(200, b'{"status":"ok","items":[1,2,3]}', {})
        elif kind == "empty":
            self.reply(200, b"", {})
        elif kind == "cut":
            text = self.ask_server(body)
            self.reply(200, text[:len(text) // 2], {})
        elif kind == "short":
            self.close_connection = True
            self.reply(200, self.ask_server(body)[:-9], {}, 9)
        elif kind == "wrong":
            self.reply(200, self.ask_server(body).replace(b'"visits":[', b'"visits":[{"visit":7},', 1).replace(b'"days"', b'"dayz"', 1), {})
        else:
            self.reply(STATUSES[kind], PORTAL, html)

    def reply(self, code, body, fields, lacking=0):
        self.server.asked.append((time.monotonic(), self.command, self.path, code, len(body)))
        super().reply(code, body, fields, lacking)

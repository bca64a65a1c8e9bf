"""One address of 127.0.0.1 for the board's files and the server's routes. Each reply has the time of a clock, and fields that it is given. It
hands requests on over a few connections that it keeps."""

import email.utils
import http.client
import http.server
import os
import queue
import socket
import urllib.parse

CONNECTIONS, PATIENCE = 8, 30
MOST_BODY = 65536
TYPES = {".html": "text/html; charset=utf-8", ".css": "text/css; charset=utf-8", ".js": "text/javascript; charset=utf-8", ".csv": "text/csv; charset=utf-8"}
# Where the page asks for the file of preferences.
PREFERENCES = "/preferences.csv"
HANDED_ON = ("X-Seen", "X-Desk")
HANDED_BACK = ("Content-Type", "X-Version", "Allow")
POLICY = "default-src 'self'; base-uri 'none'; form-action 'self'; frame-ancestors 'none'"


class Address(http.server.ThreadingHTTPServer):
    """Listens from the first moment, and hands on once it has a server."""
    daemon_threads = True
    allow_reuse_address = True
    request_queue_size = 128

    def __init__(self, port, board, preferences, clock, fields, exchange=None):
        super().__init__(("127.0.0.1", port), exchange or Exchange)
        self.board, self.preferences, self.clock, self.fields, self.links = board, preferences, clock, fields, queue.LifoQueue()

    @property
    def port(self):
        return self.server_address[1]

    def lead_to(self, port):
        """Has requests handed on to the server at a port of this machine."""
        for _ in range(CONNECTIONS):
            self.links.put(http.client.HTTPConnection("127.0.0.1", port, timeout=PATIENCE))

    def file_of(self, path):
        """The path of the board's file of this name, or that of the preferences; or None."""
        if path == PREFERENCES:
            return self.preferences
        name = os.path.normpath(path.lstrip("/") or "index.html")
        whole = os.path.join(self.board, name)
        return whole if not name.startswith("..") and os.path.splitext(name)[1] in TYPES and os.path.isfile(whole) else None

    def handle_error(self, *_):
        """A browser that goes away is no fault."""


class Exchange(http.server.BaseHTTPRequestHandler):
    """A connection of a browser."""
    protocol_version = "HTTP/1.1"
    disable_nagle_algorithm = True
    wbufsize = -1
    timeout = 120

    def setup(self):
        super().setup()
        self.request.setsockopt(socket.SOL_SOCKET, socket.SO_KEEPALIVE, 1)

    def log_message(self, *_):
        """What a browser asks, and that it is silent, is nothing to tell."""

    def is_foreign(self):
        """Whether a page of another site asks, or a name of another machine leads here."""
        host = self.headers.get("Host", "")
        if self.headers.get("Sec-Fetch-Site", "none") not in ("none", "same-origin"):
            return True
        if self.headers.get("Origin", f"http://{host}") != f"http://{host}":
            return True
        return urllib.parse.urlsplit(f"//{host}").hostname not in ("127.0.0.1", "localhost")

    def do_GET(self):
        body = self.body()
        path = self.path.partition("?")[0]
        file = self.server.file_of(path) if self.command == "GET" else None
        if body is None:
            self.reply(413, b'{"error":"large"}', {"Connection": "close"})
        elif self.is_foreign():
            self.reply(403, b'{"error":"foreign"}', {})
        elif file is not None:
            with open(file, "rb") as it:
                self.reply(200, it.read(), {"Content-Type": TYPES[os.path.splitext(file)[1]]})
        elif path == "/favicon.ico":
            self.reply(204, b"", {})
        else:
            self.hand_on(body)

    do_POST = do_PUT = do_DELETE = do_GET

    def body(self):
        """The bytes of the request's body; None if it is too long or without a length."""
        length = self.headers.get("Content-Length", "0")
        if not length.isdigit() or int(length) > MOST_BODY or "Transfer-Encoding" in self.headers:
            self.close_connection = True
            return None
        return self.rfile.read(int(length))

    def hand_on(self, body):
        fields = {name: self.headers[name] for name in HANDED_ON if name in self.headers}
        link = self.server.links.get()
        try:
            link.request(self.command, self.path, body if self.command == "POST" else None, fields)
            got = link.getresponse()
            text = got.read()
            self.reply(got.status, text, {name: got.headers[name] for name in HANDED_BACK if name in got.headers})
        except (OSError, http.client.HTTPException):
            link.close()
            self.reply(502, b'{"error":"gateway"}', {})
        finally:
            self.server.links.put(link)

    def reply(self, code, body, fields, lacking=0):
        """Sends a reply; lacking is by how many bytes its body is shorter than it says."""
        self.send_response_only(code)
        whole = {"Content-Type": "application/json", **fields, "Date": email.utils.formatdate(self.server.clock.seconds(), usegmt=True),
                 "Cache-Control": "no-cache", "Content-Security-Policy": POLICY, "X-Content-Type-Options": "nosniff", **self.server.fields}
        if code != 204:
            whole["Content-Length"] = str(len(body) + lacking)
        for name, value in whole.items():
            self.send_header(name, value)
        self.end_headers()
        self.wfile.write(body)

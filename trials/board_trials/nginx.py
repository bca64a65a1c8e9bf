"""nginx with the example configuration in front of a trial's server, in a folder of its own: TLS and a password."""

import base64
import http.client
import json
import os
import re
import shutil
import ssl
import subprocess

from shared import served
from board_trials.desk import wait
from board_trials.faulty import PREFERENCES

USER, PASSWORD = "north", "a password of north"
PROGRAM = shutil.which("nginx", path=os.environ.get("PATH", "") + ":/usr/sbin")
LOG = "log_format cost '$uri $upstream_bytes_sent $upstream_bytes_received'; access_log cost.log cost;"


class Nginx:
    """Listens until it is closed."""

    def __init__(self, room):
        self.room, self.port = room.kit.folder_of("nginx"), served.free_port()
        os.mkdir(self.room)
        with open(os.path.join(served.EXAMPLES, "proxy", "nginx.conf")) as file:
            text = file.read()
        changes = {" server 127.0.0.1:8080;": f" server 127.0.0.1:{room.server.port};", "listen 8443 ": f"listen 127.0.0.1:{self.port} ",
                   "root /usr/share/apron/board;": f"root {os.path.join(self.room, 'board')};"}
        for there, here in changes.items():
            assert text.count(there) == 1, f"the configuration has no line with {there}"
            text = text.replace(there, here)
        shutil.copytree(room.kit.board, os.path.join(self.room, "board"))
        shutil.copy(PREFERENCES, self.room)
        for folder, _, names in os.walk(self.room):
            for path in [folder, *(os.path.join(folder, name) for name in names)]:
                os.chmod(path, 0o755)
        self.write("nginx.conf", text)
        with open(os.path.join(served.EXAMPLES, "proxy", "desks.conf")) as file:
            self.write("desks.conf", file.read() + LOG + "\n")
        self.write("apron.users", f"{USER}:{self.call('passwd', '-apr1', PASSWORD)}")
        self.call("req", "-x509", "-newkey", "rsa:2048", "-nodes", "-days", "1", "-keyout", "apron.key", "-out", "apron.crt",
                  "-subj", "/CN=localhost", "-addext", "subjectAltName=DNS:localhost")
        self.process = subprocess.Popen([PROGRAM, "-p", self.room + "/", "-c", os.path.join(self.room, "nginx.conf"), "-g", "daemon off;"])
        wait("nginx listens", lambda: served.listens_at(self.port))

    def write(self, name, text):
        with open(os.path.join(self.room, name), "w") as file:
            file.write(text)

    def call(self, *words):
        return subprocess.run(["openssl", *words], cwd=self.room, check=True, stdout=subprocess.PIPE, stderr=subprocess.DEVNULL, text=True, timeout=60).stdout

    def close(self):
        self.process.terminate()
        self.process.wait(served.PATIENCE)

    @property
    def origin(self):
        return f"https://localhost:{self.port}"

    @property
    def with_password(self):
        """The address with the user and the password in it."""
        return f"https://{USER}:{PASSWORD.replace(' ', '%20')}@localhost:{self.port}"

    def sign_in(self, desk):
        """Has the browser keep the password for this address."""
        desk.page.go(f"{self.with_password}/board.css")

    def costs(self):
        """What each request so far cost the server: its path, the bytes to the server and the bytes from it."""
        with open(os.path.join(self.room, "cost.log")) as lines:
            return [(path, int(sent), int(got)) for path, sent, got in re.findall(r"(?m)^(\S+) (\d+) (\d+)$", lines.read())]

    def ask(self, method, target, body=None, **fields):
        """The status, the fields and the body that a client that is no browser gets."""
        link = http.client.HTTPSConnection("localhost", self.port, timeout=20, context=ssl._create_unverified_context())
        allowed = base64.b64encode(f"{USER}:{PASSWORD}".encode()).decode()
        link.request(method, target, None if body is None else json.dumps(body), {"Authorization": f"Basic {allowed}", **fields})
        reply = link.getresponse()
        text = reply.read()
        link.close()
        return reply.status, reply.headers, text

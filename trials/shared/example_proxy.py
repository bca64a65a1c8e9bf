"""nginx with a configuration of examples/proxy, in front of servers of its own, for proxy-trials and plan-holds. It needs the Debian packages curl,
openssl and nginx-light."""

import base64
import os
import re
import shutil
import socket
import ssl
import subprocess
import time

from shared import TOP, served

NGINX = shutil.which("nginx", path=os.environ.get("PATH", "") + ":/usr/sbin")
WORKERS = 4
LEAST_TAKEN = 4096
USER = "north"
BOARD = os.path.join(TOP, "board")


def password_of(name):
    """The user's password at the server of this name."""
    return f"a password of {name}"


class Proxy:
    """nginx with an example configuration, in a folder of its own, and a server at each address behind it: one a name."""

    def __init__(self, program, room, configuration, names):
        self.room, self.port, self.process = room, served.free_port(), None
        os.chmod(room, 0o755)
        with open(os.path.join(served.EXAMPLES, "proxy", configuration)) as file:
            text = file.read()
        addresses = re.findall(r" server (127\.0\.0\.1:\d+);", text)
        self.servers = {}
        for name, address in zip(names, addresses, strict=True):
            folder = os.path.join(room, name)
            os.mkdir(folder)
            self.servers[name] = served.Server(program, folder, WORKERS)
            self.servers[name].make_journal()
            text = self.replaced(text, f" server {address};", f" server 127.0.0.1:{self.servers[name].port};")
            self.write(f"{name}.users", USER + ":" + self.call("openssl", "passwd", "-apr1", password_of(name)).decode())
        self.server = self.servers[names[0]]
        shutil.copy(os.path.join(served.EXAMPLES, "proxy", "desks.conf"), room)
        shutil.copytree(BOARD, os.path.join(room, "board"))
        text = self.replaced(text, "root /usr/share/apron/board;", f"root {os.path.join(room, 'board')};")
        self.conf = self.write(configuration, self.replaced(text, "listen 8443 ", f"listen 127.0.0.1:{self.port} "))
        hosts = ",".join(["DNS:localhost", "IP:127.0.0.1", *(f"DNS:{name}.localhost" for name in names)])
        names = ["-subj", "/CN=localhost", "-addext", f"subjectAltName={hosts}"]
        self.call("openssl", "req", "-x509", "-newkey", "rsa:2048", "-nodes", "-days", "1", "-keyout", "apron.key", "-out", "apron.crt", *names)

    @staticmethod
    def replaced(text, there, here):
        assert text.count(there) == 1, f"the configuration has no line with {there}"
        return text.replace(there, here)

    def write(self, name, text):
        """The path of a new file in the folder."""
        path = os.path.join(self.room, name)
        with open(path, "w") as file:
            file.write(text)
        return path

    def call(self, *words):
        return subprocess.run(words, cwd=self.room, check=True, stdout=subprocess.PIPE, stderr=subprocess.DEVNULL, timeout=served.PATIENCE).stdout

    def start(self):
        for server in self.servers.values():
            server.start()
        words = [NGINX, "-p", self.room + "/", "-c", self.conf, "-g", "daemon off;"]
        self.process = subprocess.Popen(words, stdin=subprocess.DEVNULL)
        until = time.monotonic() + served.PATIENCE
        while not served.listens_at(self.port):
            assert self.process.poll() is None and time.monotonic() < until, "nginx does not listen"
            time.sleep(0.01)

    def end(self):
        if self.process is not None:
            self.process.terminate()
            self.process.wait(served.PATIENCE)
        for server in self.servers.values():
            server.kill()

    def base(self, host="localhost"):
        return f"https://{host}:{self.port}"

    def words(self, name="apron"):
        """What curl needs to get through to the server of this name."""
        return ["--cacert", os.path.join(self.room, "apron.crt"), "--user", f"{USER}:{password_of(name)}"]

    def request(self, method, target, body=b""):
        """The bytes of a request of the user."""
        password = base64.b64encode(f"{USER}:{password_of('apron')}".encode()).decode()
        return served.request(method, target, body, lines=["Host: localhost", f"Authorization: Basic {password}"])

    def curl(self, target, *words, host="localhost"):
        """The status and the body that curl gets; the status is 0 where there is no reply."""
        given = ["curl", "--silent", "--max-time", "10", "--write-out", "\n%{http_code}", *words, self.base(host) + target]
        body, _, code = subprocess.run(given, stdin=subprocess.DEVNULL, stdout=subprocess.PIPE, timeout=served.PATIENCE).stdout.rpartition(b"\n")
        return int(code), body

    def link(self):
        """A connection with TLS, of which the bytes are the caller's, and which takes in little that is not read."""
        context = ssl.create_default_context(cafile=os.path.join(self.room, "apron.crt"))
        link = socket.socket()
        link.settimeout(served.PATIENCE)
        link.setsockopt(socket.SOL_SOCKET, socket.SO_RCVBUF, LEAST_TAKEN)
        link.connect(("127.0.0.1", self.port))
        return context.wrap_socket(link, server_hostname="localhost")

"""What the programs in this folder share: where a server is, and connections to it, perhaps through a proxy that asks for a name and a
password. It needs Python 3 and nothing else."""

import base64
import getpass
import http.client
import ssl
import urllib.parse

# How many seconds a request may take.
PATIENCE = 60


class PlanServer:
    """A server, by an address such as 127.0.0.1:8080, http://127.0.0.1:8080 or https://localhost:8443/ham. The user is a name, a colon
    and a password. If the file of a certificate is given, only servers with certificates of that one are trusted."""

    def __init__(self, word, user=None, cacert=None):
        address = urllib.parse.urlsplit(word if "//" in word else "http://" + word)
        self.place, self.path = address.netloc, address.path.rstrip("/")
        self.context = ssl.create_default_context(cafile=cacert) if address.scheme == "https" else None
        self.fields = {}
        if user is not None:
            self.fields["Authorization"] = "Basic " + base64.b64encode(user.encode()).decode()

    def connection(self):
        """A connection that is opened by its first request, and again by the first one after it was closed."""
        if self.context is not None:
            return http.client.HTTPSConnection(self.place, timeout=PATIENCE, context=self.context)
        return http.client.HTTPConnection(self.place, timeout=PATIENCE)

    def target(self, target):
        """The target as the server sees it, perhaps behind a proxy that has several airports."""
        return self.path + target


def add_proxy_words(words):
    """Adds the words for a proxy to a command line, as curl has them."""
    words.add_argument("--user", metavar="NAME[:PASSWORD]", help="the user at a proxy; without a password it is asked for")
    words.add_argument("--cacert", metavar="FILE", help="the certificate by which a proxy is trusted, if the system does not know it")


def server_of(given):
    """The server that a command line with these words names."""
    user = given.user
    if user is not None and ":" not in user:
        user += ":" + getpass.getpass(f"Password of {user}: ")
    return PlanServer(given.server, user, given.cacert)


def answer_of(link, method, target, body=None, fields=()):
    """The status and the body of the reply to a request."""
    link.request(method, target, body, dict(fields))
    reply = link.getresponse()
    return reply.status, reply.read()

"""The trials of examples/proxy/bridge, for trials/proxy-trials: nginx, the bridge, and a server that ends often."""

import collections
import json
import os
import subprocess
import threading
import time

from shared import served

BRIDGE = os.path.join(served.EXAMPLES, "proxy", "bridge")
READER = os.path.join(served.EXAMPLES, "journal", "entries")
# Of the server behind the bridge: the connections of a worker, the requests of each, the clients, and the seconds until it is started again.
FEW, EACH, SENDERS, AWAY = 50, 5, 8, 1


class Bridged:
    """A proxy, the bridge and a server behind it that is started again, as a unit does, whenever it has ended."""

    def __init__(self, proxy, count):
        self.proxy, self.server, self.count, self.starts, self.over = proxy, proxy.server, count, 1, False
        self.port, self.server.port, self.server.connections = self.server.port, served.free_port(), FEW
        words = [BRIDGE, "--requests", str(EACH), f"127.0.0.1:{self.port}", f"127.0.0.1:{self.server.port}"]
        self.bridge = subprocess.Popen(words, stderr=subprocess.DEVNULL)
        self.waits, self.codes, self.lock, self.starting = [0], {}, threading.Lock(), threading.Lock()

    def __enter__(self):
        while not served.listens_at(self.port):
            assert self.bridge.poll() is None, "the bridge does not start"
            time.sleep(0.02)
        self.proxy.start()
        self.keeper = threading.Thread(target=self.start_again)
        self.keeper.start()
        return self

    def __exit__(self, *_):
        self.over = True
        self.keeper.join()
        self.proxy.end()
        self.bridge.terminate()
        self.bridge.wait()

    def start_again(self):
        while not self.over:
            if self.server.process.poll() is not None:
                time.sleep(AWAY)
                with self.starting:
                    self.server.start()
                self.starts += 1
            time.sleep(0.02)

    def send(self, sender):
        """Sends every other request as a message of its own, and notes the status of each, and how long its reply took."""
        for number in range(sender, self.count, SENDERS):
            text = message_of(number)
            request = self.proxy.request("POST", "/mvt", text) if number % 2 else self.proxy.request("GET", "/version")
            begun = time.monotonic()
            with self.proxy.link() as link:
                link.sendall(request)
                reply = link.recv(4096)
            with self.lock:
                self.waits.append(time.monotonic() - begun)
                self.codes[number] = int(reply[9:12])

    def run(self, meanwhile):
        senders = [threading.Thread(target=self.send, args=[sender]) for sender in range(SENDERS)]
        for sender in senders:
            sender.start()
        while any(sender.is_alive() for sender in senders):
            meanwhile(self)
        assert len(self.codes) == self.count, "requests got no reply"
        entries = subprocess.run([READER, self.server.copy()], check=True, stdout=subprocess.PIPE).stdout.splitlines()
        return collections.Counter(json.loads(entry)["body"] for entry in entries)


def message_of(number):
    return f"MVT\nLH{number % 10000}{chr(65 + number // 10000)}/27.DAIQA.MUC\nEA1030 APR\n".encode()


def bridge_ends(proxy, count):
    """Behind the bridge no request is refused, lost or done twice while the server uses up its connections again and again."""
    with Bridged(proxy, count) as bridged:
        taken = bridged.run(lambda _: time.sleep(0.1))
    refused = {number: code for number, code in bridged.codes.items() if code != 200}
    assert not refused, f"{len(refused)} are refused: {list(refused.items())[:5]}"
    posts = [message_of(number).decode() for number in range(count) if number % 2]
    assert set(taken) == set(posts) and len(posts) == sum(taken.values()), "messages are lost, or there twice"
    assert bridged.starts > count * 2 // (FEW * bridged.server.workers * EACH) // 3, f"the server was started {bridged.starts} times"
    return f"{count} requests, {bridged.starts} starts of the server, the longest wait {max(bridged.waits):.2f} s"


def bridge_kills(proxy, count):
    """While the server is killed again and again, no GET is refused, no POST is done twice, and none that got 200 is lost."""
    def kill(bridged):
        time.sleep(1.5)
        with bridged.starting:
            bridged.server.process.kill()

    with Bridged(proxy, count) as bridged:
        taken = bridged.run(kill)
    codes = collections.Counter((number % 2, code) for number, code in bridged.codes.items())
    assert set(codes) <= {(0, 200), (1, 200), (1, 502)}, f"{codes}"
    assert all(times == 1 for times in taken.values()), "a message is there twice"
    lost = [number for number, code in bridged.codes.items() if number % 2 and code == 200 and message_of(number).decode() not in taken]
    assert not lost, f"{len(lost)} messages that were acknowledged are lost"
    kept = sum(code == 502 and message_of(number).decode() in taken for number, code in bridged.codes.items())
    return f"{count} requests, {bridged.starts} starts, {codes[1, 502]} POSTs of unknown end, of which {kept} were taken"

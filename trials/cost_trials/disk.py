"""What a server costs while its clients wait for a slow disk."""

import shutil
import threading
import time

from shared import served
from shared.slow_disk import SYNC_MILLISECONDS, library
from cost_trials.session import Figure, Skipped, post

SLOW_SECONDS = 5


class SlowServer(served.Server):
    """A server on a disk that takes its time for each sync. For root it runs before other work, which would hide what its threads ask for."""

    def __init__(self, library, *words):
        super().__init__(*words)
        self.library = library

    def words(self):
        return ["nice", "-n", "-20", "env", f"LD_PRELOAD={self.library}", *super().words()]


def commits_till(server, desk, until, counts):
    """Has a client put its visit on a stand and deallocate it again, until a time comes; counts its commits, or has the failure there."""
    try:
        with server.link() as link:
            said = {"name": f"V{desk}", "type": "A320", "class": 3, "on": 100 * desk, "off": 100 * desk + 60}
            reply = link.ask(post("/visits", said))
            assert reply.code == 200, reply
            visit, count = int(reply.body.rpartition(b":")[2].rstrip(b"}")), 0
            while time.monotonic() < until:
                edit = {"lift": {"visit": visit, "part": 1}} if count % 2 else {"put": {"visit": visit, "part": 1, "stand": "N1"}}
                reply = link.ask(post("/commits", {"desk": f"D{desk}", "draft": count + 1, "base": reply.version, "edits": [edit]}))
                assert reply.code == 200, reply
                count += 1
            counts.append(count)
    except (AssertionError, OSError, served.Cut) as why:
        counts.append(why)


def slow_disk(program, folder):
    """While clients commit at a disk of 20 ms a sync, the server takes under 2 % of a processor."""
    if not shutil.which("cc"):
        raise Skipped("there is no cc")
    slow = library(folder)
    for desks in (8, 16):
        server, counts = SlowServer(slow, program, folder, desks), []
        server.make_journal()
        try:
            server.start()
            begun, taken = time.monotonic(), served.processor_time(server.process)
            until = begun + SLOW_SECONDS
            threads = [threading.Thread(target=commits_till, args=[server, desk, until, counts], daemon=True) for desk in range(1, desks + 1)]
            for thread in threads:
                thread.start()
            for thread in threads:
                thread.join(SLOW_SECONDS + 2 * served.PATIENCE)
            passed, taken = time.monotonic() - begun, served.processor_time(server.process) - taken
        finally:
            server.kill()
        faults = [it for it in counts if not isinstance(it, int)]
        assert not faults and len(counts) == desks, f"{len(faults)} of {desks} desks failed: {faults[:1]}"
        rate, most = sum(counts) / passed, 1000 / 2 / SYNC_MILLISECONDS
        assert most / 2 < rate < most, f"{rate:.1f} commits a second is not what this disk gives"
        yield Figure(f"a server of {desks} desks at a slow disk, of a processor", 100 * taken / passed, "%", most=2)

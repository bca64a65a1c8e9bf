"""Three hosts of one machine with GlusterFS: network, mount and UTS namespaces a, b and c, each with a glusterd and a brick of its own, and a
fourth namespace d for clients. Nothing leaves the machine. It needs root, /dev/fuse, iproute2, util-linux and Debian's glusterfs-server."""

import glob
import os
import re
import shutil
import signal
import subprocess
import time

HOSTS = "a", "b", "c"
SERVING = HOSTS[:2]
NET = {"a": "10.77.0.1", "b": "10.77.0.2", "c": "10.77.0.3", "d": "10.77.0.4"}
VOLUME = "apron"
MOUNT = ["--attribute-timeout=0", "--entry-timeout=0", "--direct-io-mode=enable"]
OPTIONS = {
    "client.strict-locks": "on", "performance.quick-read": "off", "performance.write-behind": "off", "performance.flush-behind": "off",
    "performance.open-behind": "off", "performance.stat-prefetch": "off", "performance.io-cache": "off", "performance.read-ahead": "off",
    "performance.readdir-ahead": "off", "performance.strict-o-direct": "on", "cluster.quorum-type": "auto", "cluster.quorum-reads": "on",
    "network.ping-timeout": "5", "server.keepalive-time": "5", "server.keepalive-interval": "1", "server.keepalive-count": "3",
    "server.tcp-user-timeout": "8"}
# What a host's first process does: it has its own folders in place of the machine's, and waits to be ended.
HOLDER = """
hostname "$1"
mount --bind "$2/lib" /var/lib/glusterd; mount --bind "$2/run" /run; mkdir -p /run/gluster /run/lock; mount --bind "$2/log" /var/log/glusterfs
echo $$ >"$2.holder"; exec sleep 100000
"""


def run(*words, **more):
    return subprocess.run(words, stdout=subprocess.PIPE, stderr=subprocess.STDOUT, text=True, **more)


class Hosts:
    """The hosts, in a folder whose name their namespaces have."""

    def __init__(self, room):
        self.room = room

    def netns(self, host):
        return f"{os.path.basename(self.room)}-{host}"

    def place(self, host, *names):
        return os.path.join(self.room, host, *names)

    def mount_of(self, host):
        return self.place(host, "mnt")

    def inside(self, host):
        """The words before a command that is run on a host."""
        with open(f"{self.place(host)}.holder") as file:
            return ["nsenter", "-t", file.read().strip(), "-m", "-n", "-u", "--"]

    def up(self):
        """Makes the hosts, their network, and the volume."""
        ip = lambda *words: subprocess.run(["ip", *words], check=True)
        for host in (*HOSTS, "d"):
            ip("netns", "add", self.netns(host))
            ip("-n", self.netns(host), "link", "set", "lo", "up")
        desks = self.netns("d")
        ip("-n", desks, "link", "add", "br0", "type", "bridge")
        ip("-n", desks, "link", "set", "br0", "up")
        ip("-n", desks, "addr", "add", NET["d"] + "/24", "dev", "br0")
        for host in HOSTS:
            ip("link", "add", f"apron-v{host}", "netns", self.netns(host), "type", "veth", "peer", "name", f"apron-s{host}", "netns", desks)
            ip("-n", self.netns(host), "addr", "add", NET[host] + "/24", "dev", f"apron-v{host}")
            ip("-n", self.netns(host), "link", "set", f"apron-v{host}", "up")
            ip("-n", desks, "link", "set", f"apron-s{host}", "master", "br0")
            self.link(host, True)
            self.hold(host)
        for host in HOSTS:
            self.start_glusterd(host)
        self.make_volume()

    def hold(self, host):
        for name in ("lib", "run", "log", "brick", "mnt"):
            os.makedirs(self.place(host, name))
        shutil.copytree("/var/lib/glusterd", self.place(host, "lib"), dirs_exist_ok=True, symlinks=True)
        words = ["ip", "netns", "exec", self.netns(host), "unshare", "-m", "-u", "--propagation", "private", "bash", "-c", HOLDER]
        subprocess.Popen([*words, "holder", f"host-{host}", self.place(host)], stdin=subprocess.DEVNULL, stdout=subprocess.DEVNULL, start_new_session=True)
        self.until(lambda: os.path.exists(f"{self.place(host)}.holder") and os.path.getsize(f"{self.place(host)}.holder"))

    def start_glusterd(self, host):
        subprocess.run([*self.inside(host), "glusterd"], check=True)

    @staticmethod
    def until(holds, seconds=240):
        end = time.monotonic() + seconds
        while not holds():
            if time.monotonic() > end:
                raise TimeoutError("it takes too long")
            time.sleep(0.1)

    def gluster(self, *words):
        return run(*self.inside("c"), "gluster", "--mode=script", *words, timeout=120)

    def make_volume(self):
        self.until(lambda: self.gluster("peer", "probe", NET["a"]).returncode == 0)
        self.gluster("peer", "probe", NET["b"])
        self.until(lambda: self.gluster("peer", "status").stdout.count("Peer in Cluster (Connected)") == 2)
        bricks = [f"{NET[host]}:{self.place(host, 'brick', VOLUME)}" for host in HOSTS]
        made = self.gluster("volume", "create", VOLUME, "replica", "3", *bricks, "force")
        assert made.returncode == 0, made.stdout
        for option, value in OPTIONS.items():
            self.set(option, value)
        assert self.gluster("volume", "start", VOLUME).returncode == 0
        for host in SERVING:
            self.mount(host)

    def set(self, option, value):
        said = self.gluster("volume", "set", VOLUME, option, value)
        assert said.returncode == 0, f"{option}: {said.stdout}"

    def reset(self, option):
        said = self.gluster("volume", "reset", VOLUME, option)
        assert said.returncode == 0, f"{option}: {said.stdout}"

    def mount(self, host, options=MOUNT):
        """Mounts the volume on a host, again if it was mounted."""
        where = self.mount_of(host)
        run(*self.inside(host), "umount", "-l", where)
        words = [*self.inside(host), "glusterfs", "--process-name", "fuse", "--volfile-server=127.0.0.1", f"--volfile-id={VOLUME}", *options, where]
        subprocess.run(words, check=True)
        self.until(lambda: run(*self.inside(host), "stat", "-f", "-c", "%T", where).stdout.strip() == "fuseblk" or
                   "fuse" in run(*self.inside(host), "stat", "-f", "-c", "%T", where).stdout)
        self.until(lambda: run(*self.inside(host), "ls", where).returncode == 0)

    def link(self, host, is_up):
        """Takes a host off the network, or puts it back."""
        subprocess.run(["ip", "-n", self.netns("d"), "link", "set", f"apron-s{host}", "up" if is_up else "down"], check=True)

    def client(self, host):
        """The process of the mount on a host."""
        for path in glob.glob("/proc/[0-9]*/cmdline"):
            try:
                with open(path, "rb") as file:
                    words = file.read().split(b"\0")[:-1]
            except OSError:
                continue
            if words and os.path.basename(words[0]) == b"glusterfs" and os.fsdecode(words[-1]) == self.mount_of(host):
                return int(path.split("/")[2])
        raise ProcessLookupError(f"host {host} has no mount")

    def brick(self, host):
        """The process of the brick of a host."""
        path, = glob.glob(self.place(host, "run", "gluster", "vols", VOLUME, "*.pid"))
        with open(path) as file:
            return int(file.read())

    def start_bricks(self):
        """Starts bricks that are away, and waits until all are there. They heal while clients go on, and heal info then always has an entry."""
        def are_there():
            # glusterd may not yet have seen that a brick has ended, or be busy.
            self.gluster("volume", "start", VOLUME, "force")
            return self.gluster("volume", "heal", VOLUME, "info", "summary").stdout.count("Status: Connected") == 3
        self.until(are_there)

    def heal(self):
        """Waits until all bricks have the same. Nobody may write meanwhile."""
        self.start_bricks()

        def is_whole():
            self.gluster("volume", "heal", VOLUME)
            self.said = self.gluster("volume", "heal", VOLUME, "info", "summary").stdout
            return self.said.count("Status: Connected") == 3 and not re.search(r"Total Number of entries: [1-9]", self.said)
        try:
            self.until(is_whole)
        except TimeoutError:
            raise TimeoutError(f"the bricks do not heal: {self.said}") from None

    def brick_file(self, host, name):
        return self.place(host, "brick", VOLUME, name)

    def down(self):
        """Ends all that was started, by the processes of the namespaces, and removes the hosts."""
        for host in SERVING:
            if os.path.exists(f"{self.place(host)}.holder"):
                run(*self.inside(host), "umount", "-l", self.mount_of(host))
        for host in (*HOSTS, "d"):
            for pid in run("ip", "netns", "pids", self.netns(host)).stdout.split():
                try:
                    os.kill(int(pid), signal.SIGKILL)
                except (ProcessLookupError, ValueError):
                    pass
            run("ip", "netns", "del", self.netns(host))

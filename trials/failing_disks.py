"""Storages that fail on command, for trials/watchdog-trials. Each is made in a folder, and gives the place for a journal and the call that
has it fail. They need root; what else is missing is named."""

import contextlib
import fcntl
import os
import shutil
import struct
import subprocess
import time

# The calls that write and sync a journal; the causes of a failure after which the journal is no longer the server's, and those of no room.
CALLS = "pwrite64", "fdatasync"
LOST = "EBADF", "EBADFD", "ENOTCONN", "ESTALE", "EIO", "EROFS"
ROOM = "ENOSPC", "EDQUOT", "EFBIG"
# Shuts an ext4 file system down, without a last write of its own log.
SHUTDOWN, WITHOUT_LOG = 0x8004587D, 2


class Missing(Exception):
    """What a storage needs, and this machine has not."""


def needs(*programs):
    """Raises what is missing of root and these programs."""
    missing = [] if os.geteuid() == 0 else ["root"]
    missing += [name for name in programs if shutil.which(name) is None]
    if missing:
        raise Missing(" and ".join(missing))


def failing(call, cause, first, last=""):
    """The words before a server whose calls of this name fail: of each thread from the first to the last, or all from the first on."""
    return ["strace", "-f", "-o", os.devnull, "-e", f"trace={call}", "-e", f"inject={call}:error={cause}:when={first}{last and f'..{last}'}"]


@contextlib.contextmanager
def mounted(room, *words):
    """A new folder with something mounted on it."""
    place = os.path.join(room, "mount")
    os.mkdir(place)
    ran = subprocess.run(["mount", *words, place], stdout=subprocess.PIPE, stderr=subprocess.STDOUT, text=True)
    if ran.returncode:
        raise Missing(ran.stdout.strip())
    try:
        yield place
    finally:
        subprocess.run(["umount", "-l", place], stderr=subprocess.DEVNULL)


@contextlib.contextmanager
def ext4(room):
    """An ext4 file system in a file."""
    needs("mkfs.ext4")
    image = os.path.join(room, "image")
    with open(image, "wb") as file:
        file.truncate(8 << 20)
    subprocess.run(["mkfs.ext4", "-q", "-F", image], check=True)
    with mounted(room, "-o", "loop,errors=remount-ro", image) as place:
        yield place


@contextlib.contextmanager
def becomes_read_only(room):
    """A file system that finds an error of its own, and is read-only from then on (EROFS)."""
    with ext4(room) as place:
        device = os.stat(place).st_dev
        name = os.path.basename(os.readlink(f"/sys/dev/block/{os.major(device)}:{os.minor(device)}"))

        def fail():
            with open(f"/sys/fs/ext4/{name}/trigger_fs_error", "w") as file:
                file.write("an error")
        yield place, fail


@contextlib.contextmanager
def is_shut_down(room):
    """A file system that is shut down, as by a dead device (EIO)."""
    with ext4(room) as place:
        def fail():
            folder = os.open(place, os.O_RDONLY)
            try:
                fcntl.ioctl(folder, SHUTDOWN, struct.pack("I", WITHOUT_LOG))
            finally:
                os.close(folder)
        yield place, fail


@contextlib.contextmanager
def loses_its_process(room):
    """A FUSE file system whose process is killed (ENOTCONN)."""
    needs("bindfs")
    place, source = (os.path.join(room, name) for name in ("mount", "source"))
    os.mkdir(place)
    os.mkdir(source)
    with subprocess.Popen(["bindfs", "-f", source, place]) as process:
        try:
            while not os.path.ismount(place):
                if process.poll() is not None:
                    raise Missing("/dev/fuse")
                time.sleep(0.01)
            yield place, process.kill
        finally:
            process.kill()
            subprocess.run(["umount", "-l", place], stderr=subprocess.DEVNULL)


@contextlib.contextmanager
def is_unmounted(room):
    """A mount that goes away."""
    needs()
    with mounted(room, "-t", "tmpfs", "tmpfs") as place:
        yield place, lambda: subprocess.run(["umount", "-l", place], check=True)


@contextlib.contextmanager
def gets_full(room):
    """A file system with little room (ENOSPC)."""
    needs()
    with mounted(room, "-t", "tmpfs", "-o", "size=64k", "tmpfs") as place:
        filler = os.path.join(place, "filler")

        def fail():
            with contextlib.suppress(OSError), open(filler, "wb", buffering=0) as file:
                while True:
                    file.write(bytes(1024))
        yield place, fail

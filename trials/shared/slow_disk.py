"""A disk that takes its time: a library in C, which a program loads before its own, has each sync take 20 ms and reach no disk. It needs a C
compiler (the Debian package gcc)."""

import os
import subprocess

SYNC_MILLISECONDS = 20
LIBRARY_IN_C = """
#include <time.h>

static int waited(void) {
    struct timespec span = {0, %d000000};
    while (nanosleep(&span, &span)) {}
    return 0;
}

int fsync(int file) { (void)file; return waited(); }
int fdatasync(int file) { (void)file; return waited(); }
"""


def library(folder):
    """The path of the library, which is made in this folder."""
    source, path = (os.path.join(folder, name) for name in ("slow.c", "slow.so"))
    with open(source, "w") as file:
        file.write(LIBRARY_IN_C % SYNC_MILLISECONDS)
    subprocess.run(["cc", "-shared", "-fPIC", "-O1", "-Wall", "-o", path, source], check=True, timeout=60)
    return path

"""Runs the blocks of commands of a page as they are written, in a fresh clone or with an installed package, and compares what they print with
what the page shows."""

import os
import shutil
import signal
import subprocess
import tempfile
import time

PATIENCE = 300
# A page has a network of its own, so that the ports that it names are free.
APART = ["unshare", "--user", "--map-root-user", "--net", "/bin/sh", "-c", 'ip link set lo up && exec "$@"', "page"]


class Lacking(Exception):
    """Something without which no block can be run."""


def parse_fault(block):
    """Why a block is no shell script, or None."""
    ran = subprocess.run(["bash", "-n"], input=block.text, capture_output=True, text=True)
    return ran.stderr.strip() or "it is no shell script" if ran.returncode else None


def has_networks():
    """Whether this machine gives a process a network of its own."""
    return all(map(shutil.which, ("unshare", "ip"))) and subprocess.run([*APART, "true"], capture_output=True).returncode == 0


def script_of(blocks, room):
    """One script of all blocks. Each prints to a file of its own, and leaves one more behind when it has ended well."""
    lines = ["set -e"]
    for number, block in enumerate(blocks):
        lines += [f"exec 1>'{room}/{number}.output'", block.text, f": >'{room}/{number}.ended'"]
    return "\n".join(lines) + "\n"


def clone(top, room):
    """A fresh clone of what is committed, which has to have a shipped program of its sources: else its first command would build one."""
    folder = os.path.join(room, "apron")
    subprocess.run(["git", "clone", "--quiet", "--no-hardlinks", top, folder], check=True, capture_output=True, timeout=PATIENCE)
    if subprocess.run([os.path.join(folder, "scripts", "program"), "--shipped"], capture_output=True).returncode != 0:
        raise Lacking("no program of the committed sources is shipped")
    return folder


def unpacked(package, room):
    """What a Debian package has for a reader: a folder with its documents and examples, and with its program in the place of the launcher. It is
    committed to a repository of its own, so that it can be cleaned."""
    root = os.path.join(room, "root")
    subprocess.run(["dpkg-deb", "--extract", package, root], check=True, timeout=PATIENCE)
    folder = os.path.join(root, "usr", "share", "doc", "apron")
    os.symlink(os.path.join(root, "usr", "bin", "apron"), os.path.join(folder, "apron"))
    os.symlink(os.path.join(root, "usr", "libexec", "apron"), os.path.join(folder, "scripts"))
    git(folder, "init", "--quiet")
    git(folder, "add", "--all", "--force")
    git(folder, "-c", "user.name=doc-holds", "-c", "user.email=", "commit", "--quiet", "--message", "unpacked")
    return folder


def clean(folder):
    """Makes a folder as it was when it was cloned or unpacked."""
    git(folder, "reset", "--quiet", "--hard")
    git(folder, "clean", "--quiet", "-xdff")


def git(folder, *words):
    subprocess.run(["git", "-C", folder, *words], check=True, capture_output=True, timeout=PATIENCE)


def run_page(blocks, room, folder, environment):
    """Runs the blocks one after the other in one shell; all that they started is ended after them. Gives standard error."""
    words = [*(APART if has_networks() else []), "bash", "-c", script_of(blocks, room)]
    with open(os.path.join(room, "errors"), "wb") as errors:
        process = subprocess.Popen(words, cwd=folder, env=environment, stdin=subprocess.DEVNULL, stdout=subprocess.DEVNULL, stderr=errors,
                                   start_new_session=True)
        until = time.monotonic() + PATIENCE
        # The shell is not reaped before its group is ended, so that no other process can have the group's number.
        while os.waitid(os.P_PID, process.pid, os.WEXITED | os.WNOHANG | os.WNOWAIT) is None and time.monotonic() < until:
            time.sleep(0.05)
        os.killpg(process.pid, signal.SIGKILL)
        process.wait()
    with open(os.path.join(room, "errors"), errors="replace") as file:
        return file.read()


def output_fault(number, block, room):
    """Why what a block printed is not what the page shows, or None."""
    with open(os.path.join(room, f"{number}.output"), errors="replace") as file:
        printed = file.read()
    if block.shown is None or printed.rstrip() == block.shown.rstrip():
        return None
    return f"it printed\n{printed.rstrip()}\nand the page shows\n{block.shown.rstrip()}"


def page_faults(page, blocks, folder, environment):
    """What does not hold of the blocks of a page that are run in a folder."""
    with tempfile.TemporaryDirectory() as room:
        errors = run_page(blocks, room, folder, environment)
        for number, block in enumerate(blocks):
            if not os.path.exists(os.path.join(room, f"{number}.ended")):
                yield f"{page.path}:{block.line}: these commands failed, or did not end:\n{block.text}\n{errors[-2000:]}"
                return
            fault = output_fault(number, block, room)
            if fault:
                yield f"{page.path}:{block.line}: {fault}"

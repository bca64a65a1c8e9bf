"""Has the program answer requests, and compares each request and each reply with the API description: the example sessions, drawn requests to
`apron desk` and to a server, and replies that have to be made on purpose."""

import importlib.machinery
import importlib.util
import os
import re
import resource
import shutil
import subprocess
import tempfile

from shared import served
from shared.served import request
from shared.stand_plan import Airport, compact
from api_holds.day import steps_of
from api_holds.draws import Draws
from api_holds.texts import read_request, replies_in, requests_in
from journal_bytes import journal_of, message_of, on_block_of, visit_of

MOST_ENTRIES = 200_000
SESSIONS_OF_A_JOURNAL, REQUESTS_OF_A_SESSION = 12, 25
# Every so many journals is that of a server, and the others are those of `apron desk`.
SERVED = 5
# How many aircraft stand on one stand at one minute, so that a chart has an alarm for every two of them.
CROWD = 800
PATIENCE = 60


class Looks:
    """Compares requests and replies with a description, as it means them exactly and as tools read it, and counts them."""

    def __init__(self, description, as_written):
        self.description, self.as_written, self.faults, self.requests, self.forbidden = description, as_written, [], 0, 0

    def look(self, name, asked, reply):
        """A request and the reply that came to it."""
        self.requests += 1
        wanted = self.description.form_fault(asked)
        self.forbidden += wanted is not None
        word = refusal_of(reply)
        if word != wanted:
            self.faults.append(f"{name}: {shown(asked)} was answered {reply.code} {reply.body[:100]!r}, and the description "
                               f"{'allows it' if wanted is None else 'forbids it with ' + wanted}")
        elif fault := self.description.reply_fault(asked, reply) or self.as_written.tools_fault(asked, reply):
            self.faults.append(f"{name}: {shown(asked)} was answered {reply.code} {reply.body[:100]!r}: {fault}")

    def look_at(self, name, stream, output, whole=True):
        """The requests of a stream and the replies in an output. Unless the stream is whole, its last requests may have none."""
        asked, replies = list(requests_in(stream)), list(replies_in(output))
        if len(replies) > len(asked) or whole and len(replies) < len(asked):
            self.faults.append(f"{name}: {len(replies)} replies came to {len(asked)} requests")
        for it, reply in zip(asked, replies):
            self.look(name, it, reply)
        return replies


def refusal_of(reply):
    """The word of a refusal that a request gets for its form alone, or None."""
    words = (b"head", b"encoding", b"large", b"length", b"route", b"method", b"seen", b"desk", b"json", b"mvt")
    return next((word.decode() for word in words if b'"error":"%s"' % word in reply.body), None) if reply.media == "application/json" else None


def shown(asked):
    return f"{asked.method} {asked.target} {dict(asked.fields)} {asked.body[:200]!r}"


def desk(program, files, journal, stream):
    """What `apron desk` answers to a stream."""
    words = [program, "desk", *files, journal]
    return subprocess.run(words, input=stream, stdout=subprocess.PIPE, stderr=subprocess.DEVNULL, timeout=PATIENCE).stdout


def made(program, files, journal):
    """A journal without entries, at its path."""
    subprocess.run([program, "init", *files, journal], stdout=subprocess.DEVNULL, check=True, timeout=PATIENCE)
    return journal


# The example sessions

def words_of(step):
    with open(f"{step}.words") as file:
        return file.read().split()


def sessions_of(name):
    """The sessions of a text, as examples/check-texts reads them."""
    loader = importlib.machinery.SourceFileLoader("check_texts", os.path.join(served.EXAMPLES, "check-texts"))
    texts = importlib.util.module_from_spec(importlib.util.spec_from_loader("check_texts", loader))
    loader.exec_module(texts)
    return texts.sessions_of(name)


def try_text(looks, program, name):
    """The sessions of a text, each of which begins on an empty journal. Of bytes that are sent as they are the description says nothing."""
    for session in sessions_of(name):
        with tempfile.TemporaryDirectory(dir=served.IN_MEMORY) as folder:
            words = [*(os.path.join(served.EXAMPLES, it) for it in session.files), os.path.join(folder, "journal")]
            subprocess.run([program, "init", *words], capture_output=True, timeout=PATIENCE)
            for desk in session.desks:
                stream = b"".join(it.sent for it in desk.requests)
                ran = subprocess.run([program, "desk", *words], input=stream, capture_output=True, timeout=PATIENCE)
                if not any(it.line.startswith("!") for it in desk.requests):
                    looks.look_at(f"{name}: {session.shows}", stream, ran.stdout, whole=False)


def try_session(looks, program, name):
    """The steps of an example session, in a fresh folder with what examples/check puts there."""
    session = os.path.join(served.EXAMPLES, "sessions", name)
    with tempfile.TemporaryDirectory() as folder:
        for it in ("demo", "large"):
            shutil.copytree(os.path.join(served.EXAMPLES, it), os.path.join(folder, it))
        for it in [os.path.join(served.EXAMPLES, "journal", "format-1"), *(entry.path for entry in os.scandir(session))]:
            shutil.copy(it, folder)
        number = 1
        while os.path.exists(os.path.join(session, f"{number}.words")):
            step = os.path.join(session, str(number))
            words, stream = words_of(step), b""
            if os.path.exists(f"{step}.input"):
                with open(f"{step}.input", "rb") as file:
                    stream = file.read()
            if words[:1] == ["desk"] and len(words) == 4 and not os.path.exists(os.path.join(folder, words[3])):
                subprocess.run([program, "init", *words[1:]], cwd=folder, capture_output=True, timeout=PATIENCE)
            ran = subprocess.run([program, *words], input=stream, cwd=folder, capture_output=True, timeout=PATIENCE)
            if words[:1] == ["desk"] and ran.stdout.startswith(b"HTTP/"):
                looks.look_at(f"session {name}, step {number}", stream, ran.stdout, whole=False)
            number += 1


def try_examples(looks, program, room):
    """The examples of the description in their order: each reply is the one that stands there."""
    files, steps = served.files_of("demo"), list(steps_of(looks.description))
    journal, stream = made(program, files, os.path.join(room, "examples")), b"".join(sent for _, sent, _ in steps)
    replies = looks.look_at("the examples", stream, desk(program, files, journal, stream))
    for (step, _, wanted), reply in zip(steps, replies):
        if (reply.code, reply.body.decode()) != wanted:
            looks.faults.append(f"the example {step}: {reply.code} {reply.body[:300]!r} came, and not {wanted}")


# Heads that are refused

def try_heads(looks, program, room):
    """Each way in which a head is refused, at the target of each operation."""
    files = served.files_of("demo")
    journal = made(program, files, os.path.join(room, "heads"))
    for operation in looks.description.operations:
        line = f"{operation.method} {re.sub('{watch}', 'ALL', operation.path)} HTTP/1.1\r\n"
        line = re.sub(r"{\w+}", "1", line)
        for field in ("Content-Length: x", "Content-Length: 65537", "Transfer-Encoding: chunked", *["Host: apron"] * (operation.method == "POST")):
            stream = f"{line}{field}\r\n\r\n".encode()
            looks.look_at("a head that is refused", stream, desk(program, files, journal, stream))


# Drawn requests

def drawn_session(draws, description, forbidden):
    """Requests of a session, as their bytes, and how many of them the description forbids. The last one may close it."""
    session, count = [], 0
    while len(session) < REQUESTS_OF_A_SESSION:
        wanted = (forbidden + count) * 3 <= draws.asked
        data = draws.changed() if wanted else draws.plain().bytes()
        asked, end = read_request(data, 0)
        if end != len(data):
            continue
        fault = description.form_fault(asked)
        if wanted and fault is None and draws.draw.random() < 0.7:
            continue
        session.append(data)
        draws.asked += 1
        count += fault is not None
        if fault in ("head", "encoding", "large", "length") or asked.closes():
            break
    return b"".join(session), count


def answered(program, files, journal, stream, server):
    """What the program answers to a stream: `apron desk`, or a server over one connection."""
    if server is None:
        return desk(program, files, journal, stream)
    with server.link() as link:
        link.send(stream)
        link.end_input()
        return served.read_all(link.socket)


def try_drawn(looks, program, seed, number, count):
    """Sessions of drawn requests on one journal, about so many requests in all."""
    example = ("demo", "large")[number % 2]
    files, forbidden = served.files_of(example), 0
    draws = Draws(f"{seed} {number}", Airport(*files))
    draws.asked = 0
    with tempfile.TemporaryDirectory(dir=served.IN_MEMORY) as room:
        journal, server = made(program, files, os.path.join(room, "journal")), None
        if number % SERVED == SERVED - 1:
            server = served.Server(program, room, 2, example=example)
            server.start()
        try:
            while draws.asked < count:
                stream, more = drawn_session(draws, looks.description, forbidden)
                forbidden += more
                for reply in looks.look_at(f"journal {number}", stream, answered(program, files, journal, stream, server)):
                    draws.learn(reply)
        finally:
            if server:
                server.kill()


# Replies that no request can ask for

def commands(version, visit):
    """One valid command of each kind about two visits that are expected at the demo airport."""
    edits = [{"put": {"visit": visit, "part": 1, "stand": "N1"}}]
    return [
        request("POST", "/visits", compact({"name": "NEW", "type": "A320", "class": 3, "on": 600, "off": 660})),
        request("POST", "/commits", compact({"desk": "D", "draft": 1, "base": version, "edits": edits})),
        request("POST", "/mvt", b"MVT\nLH9/27.DAIQA.APR\n"),
        request("POST", "/reports", compact({"visit": visit, "on": {"part": 1, "stand": "N1", "minute": 600}})),
        request("POST", "/cancels", compact({"visit": visit + 1}))]


def written(path, data):
    with open(path, "wb") as file:
        file.write(data)
    return path


def expect(looks, name, stream, output, word):
    """Looks at the replies of an output, and whether each one has the word."""
    for reply in looks.look_at(name, stream, output):
        if b'"error":"%s"' % word not in reply.body:
            looks.faults.append(f"{name}: {reply.code} {reply.body[:100]!r} came, and not {word.decode()}")


def try_full(looks, program, room):
    """Each kind of command on a journal with as many entries as there may be."""
    files = served.files_of("demo")
    visits = [visit_of(f"V{it}", 0, 3, 600, 660) for it in (1, 2)]
    full = [*visits, *[message_of("MVT\nLH1/27.GEN.MUC\n")] * (MOST_ENTRIES - len(visits))]
    journal, stream = written(os.path.join(room, "full"), journal_of(files, full)), b"".join(commands(MOST_ENTRIES, 1))
    expect(looks, "a full history", stream, desk(program, files, journal, stream), b"full")
    os.remove(journal)


def limited(program, files, journal, kind, most):
    """An `apron desk` that has answered one request, and has such a limit since. SIGXFSZ is ignored, so that a write that goes too far fails."""
    shell = ["/bin/sh", "-c", 'trap "" XFSZ && exec "$@"', "desk", program, "desk", *files, journal]
    process = subprocess.Popen(shell, stdin=subprocess.PIPE, stdout=subprocess.PIPE, stderr=subprocess.DEVNULL)
    process.stdin.write(request("GET", "/version"))
    process.stdin.flush()
    process.stdout.read1()
    limit = most(process.pid)
    resource.prlimit(process.pid, kind, (limit, limit))
    return process


def addresses_of(pid):
    """The bytes of addresses that a process has now."""
    with open(f"/proc/{pid}/statm") as file:
        return int(file.read().split()[0]) * resource.getpagesize()


def try_failing_disk(looks, program, room):
    """Each kind of command while the journal's file can't grow."""
    files = served.files_of("demo")
    visits = [visit_of(f"V{it}", 0, 3, 600, 660) for it in (1, 2)]
    journal, stream = written(os.path.join(room, "stuck"), journal_of(files, visits)), b"".join(commands(len(visits), 1))
    process = limited(program, files, journal, resource.RLIMIT_FSIZE, lambda _: os.path.getsize(journal))
    expect(looks, "a disk without room", stream, process.communicate(stream, PATIENCE)[0], b"keeper")


def try_lack_of_memory(looks, program, room):
    """A chart that is greater than the memory that is left."""
    files = served.files_of("demo")
    crowd = [visit_of(f"V{it}", 0, 3, 600, 660) for it in range(1, CROWD + 1)]
    crowd += [on_block_of(it, 1, 0, 600) for it in range(1, CROWD + 1)]
    journal, stream = written(os.path.join(room, "crowd"), journal_of(files, crowd)), request("GET", "/chart/1")
    process = limited(program, files, journal, resource.RLIMIT_AS, addresses_of)
    expect(looks, "a lack of memory", stream, process.communicate(stream, PATIENCE)[0], b"memory")


def try_all(looks, program, count, seed):
    """All of it. Tells on the way what was done."""
    sessions = os.path.join(served.EXAMPLES, "sessions")
    names = [it for it in sorted(os.listdir(sessions)) if os.path.isdir(os.path.join(sessions, it))]
    texts = [it.removesuffix(".session") for it in sorted(os.listdir(sessions)) if it.endswith(".session")]
    for name in names:
        try_session(looks, program, name)
    for name in texts:
        try_text(looks, program, name)
    print(f"{len(names)} example sessions and {len(texts)} texts of them: {looks.requests} requests, {looks.forbidden} of them faulty", flush=True)
    before = looks.requests, looks.forbidden
    each = SESSIONS_OF_A_JOURNAL * REQUESTS_OF_A_SESSION
    for number in range(-(-count // each)):
        try_drawn(looks, program, seed, number, min(each, count - number * each))
    print(f"seed {seed}: {looks.requests - before[0]} drawn requests, {looks.forbidden - before[1]} of them faulty", flush=True)
    with tempfile.TemporaryDirectory(dir=served.IN_MEMORY) as room:
        for trial in (try_examples, try_heads, try_full, try_failing_disk, try_lack_of_memory):
            trial(looks, program, room)

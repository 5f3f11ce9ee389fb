"""A server and its clients, for the checks over real sockets.

Each check is a script of this folder: NAME.py PROGRAM [--divide N]. It prints a line for each thing that it shows and
last 'N passed, M failed', with status 1 where one failed. What can't run here has a line 'skipped', and is in neither
count. N divides the counts, for a program that was built without optimization. Nothing is timed, but that something
happens within LIMIT seconds where it has to happen at all.

A storm is a check that takes a count of workers: --workers N runs the storms alone, with N workers. --only NAME runs
one check by its function's name, and --times N runs each N times. Storms look at times, since what they are about is
who waits for whom; their bounds are some times what a quiet machine shows.
"""

import argparse
import collections
import concurrent.futures
import contextlib
import json
import os
import pathlib
import re
import resource
import selectors
import socket
import struct
import subprocess
import sys
import tempfile
import threading
import time
import traceback

LIMIT = 60
SEED = 7
USER = {"user": "demo", "password": "demo"}
POLICY = {"accounts": {"A": {"users": [USER]}}}
TEXTS = {
    "authorization": b"-ERR 'Authorization Violation'\r\n",
    "connections": b"-ERR 'Maximum Connections Exceeded'\r\n",
    "payload": b"-ERR 'Maximum Payload Violation'\r\n",
    "slow": b"-ERR 'Slow Consumer'\r\n",
    "unknown": b"-ERR 'Unknown Protocol Operation'\r\n",
}


class Failed(Exception):
    """What a check wanted and didn't find."""


class Skipped(Exception):
    """Why a check can't run here. It isn't counted."""


def want(holds, why):
    if not holds:
        raise Failed(why)


def shown(data, most=200):
    if len(data) <= most:
        return repr(bytes(data))
    return f"{bytes(data[:most // 2])!r} .. {bytes(data[-most // 2:])!r} ({len(data)} bytes)"


def wait_for(what, why, limit=LIMIT):
    """Waits until `what()` holds."""
    end = time.monotonic() + limit
    while not what():
        want(time.monotonic() < end, f"not within {limit} s: {why}")
        time.sleep(0.02)


def raise_descriptors(wanted):
    """Lets this process, and what it starts, have this number of descriptors."""
    soft, hard = resource.getrlimit(resource.RLIMIT_NOFILE)
    want(hard == resource.RLIM_INFINITY or hard >= wanted,
         f"the limit of descriptors has to be {wanted} at least, and the system gives {hard} at most (ulimit -Hn)")
    resource.setrlimit(resource.RLIMIT_NOFILE, (max(soft, wanted), hard))


class Server:
    """A program that serves. Policies come as frames on its standard input, or with `file` in a file."""

    def __init__(self, program, *words, policy=POLICY, file=False, descriptors=None, listen="127.0.0.1:0"):
        self.room = tempfile.TemporaryDirectory()
        self.path = pathlib.Path(self.room.name) / "policy.json"
        line = self.command(program, listen, [*map(str, words)])
        if file:
            self.write(policy)
            line += ["--policy", str(self.path)]
        self.errors = open(pathlib.Path(self.room.name) / "errors", "w+b")
        limit = None
        if descriptors:
            hard = resource.getrlimit(resource.RLIMIT_NOFILE)[1]
            limit = lambda: resource.setrlimit(resource.RLIMIT_NOFILE, (descriptors, hard))
        self.process = subprocess.Popen(line, stdin=subprocess.DEVNULL if file else subprocess.PIPE,
                                        stdout=subprocess.PIPE, stderr=self.errors, preexec_fn=limit)
        self.lines, self.changed, self.read = [], threading.Condition(), 0
        self.is_at_end = False
        threading.Thread(target=self._listen, daemon=True).start()
        try:
            if not file:
                self.frame(policy)
            found = re.fullmatch(r"listening (\S+):(\d+)", self.line())
            want(found, f"the first line is {self.lines[0]!r}")
            self.address = found[1], int(found[2])
        except BaseException:
            self.close()
            raise

    def command(self, program, listen, words):
        """Returns the command line."""
        return [program, "serve", "--listen", listen, *words]

    def _listen(self):
        for line in self.process.stdout:
            with self.changed:
                self.lines.append(line.decode(errors="backslashreplace").removesuffix("\n"))
                self.changed.notify_all()
        with self.changed:
            self.is_at_end = True
            self.changed.notify_all()

    def line(self, limit=LIMIT):
        """Waits for the next line that was printed."""
        with self.changed:
            self.changed.wait_for(lambda: self.read < len(self.lines) or self.is_at_end, limit)
            # (what stands on standard error grows with each reload, so it is read only for a fault)
            if self.read == len(self.lines):
                raise Failed(f"nothing more was printed after {self.lines[-3:]}; {self.said()}")
            self.read += 1
            return self.lines[self.read - 1]

    def said(self):
        self.errors.seek(0)
        return f"standard error: {shown(self.errors.read())}"

    def write(self, policy):
        """Puts a policy, or a text, in the place of the file's."""
        new = self.path.with_suffix(".new")
        new.write_text(policy if isinstance(policy, str) else json.dumps(policy))
        os.replace(new, self.path)

    def frame(self, policy):
        """Hands a policy, or a text, in as a frame."""
        text = (policy if isinstance(policy, str) else json.dumps(policy)).encode()
        try:
            self.process.stdin.write(b"%d\n%b" % (len(text), text))
            self.process.stdin.flush()
        except BrokenPipeError:
            raise Failed(f"it reads no policy: {self.said()}") from None

    def seconds(self):
        """Returns how much of a processor it has used."""
        fields = pathlib.Path(f"/proc/{self.process.pid}/stat").read_text().rpartition(")")[2].split()
        return (int(fields[11]) + int(fields[12])) / os.sysconf("SC_CLK_TCK")

    def scheduled(self):
        """Returns for how long its threads have run, and have waited for a processor, in nanoseconds."""
        files = pathlib.Path(f"/proc/{self.process.pid}/task").glob("*/schedstat")
        times = [[*map(int, it.read_text().split()[:2])] for it in files]
        return sum(run for run, _ in times), sum(waited for _, waited in times)

    def kilobytes(self):
        """Returns how much memory it has."""
        return int(re.search(r"VmRSS:\s+(\d+)", pathlib.Path(f"/proc/{self.process.pid}/status").read_text())[1])

    def descriptors(self):
        return len(os.listdir(f"/proc/{self.process.pid}/fd"))

    def end_input(self):
        self.process.stdin.close()

    def status(self):
        try:
            return self.process.wait(LIMIT)
        except subprocess.TimeoutExpired:
            raise Failed(f"it hasn't ended within {LIMIT} s") from None

    def close(self):
        self.process.kill()
        self.process.wait()
        self.errors.close()
        self.room.cleanup()

    def __enter__(self):
        return self

    def __exit__(self, kind, error, trace):
        if isinstance(error, Failed) and self.process.poll() is not None:
            ended = f"the server has ended with {self.process.returncode}: {self.lines[-2:]}, {self.said()}"
            error.args = (f"{error}; {ended}",)
        self.close()


class Client:
    """A connection. Unless `connect` is false, its CONNECT has been accepted."""

    # Those that stay open while nobody names them.
    kept = []

    def __init__(self, server, user="demo", connect=True, receive=None, **options):
        self.socket = socket.socket()
        self.socket.settimeout(LIMIT)
        if receive:
            self.socket.setsockopt(socket.SOL_SOCKET, socket.SO_RCVBUF, receive)
        self.socket.connect(server.address)
        self.socket.setsockopt(socket.IPPROTO_TCP, socket.TCP_NODELAY, 1)
        self.got = bytearray()
        if connect is None:
            return
        self.number = json.loads(self.line(b"INFO "))["client_id"]
        if connect:
            self.send(self.connecting(user, **options))
            self.ping(verbose=options.get("verbose", False))

    @staticmethod
    def connecting(user="demo", **options):
        return b"CONNECT %b\r\n" % json.dumps({"user": user, "pass": user, "verbose": False, **options}).encode()

    def send(self, data):
        self.socket.sendall(data)

    def more(self):
        """Reads what comes, and returns whether anything came."""
        try:
            data = self.socket.recv(1 << 18)
        except ConnectionResetError:
            return False
        except TimeoutError:
            raise Failed(f"nothing came for {self.socket.gettimeout():.0f} s after {shown(self.got)}") from None
        self.got += data
        return bool(data)

    def take(self, count):
        while len(self.got) < count:
            want(self.more(), f"closed after {shown(self.got)}")
        data = bytes(self.got[:count])
        del self.got[:count]
        return data

    def line(self, begin=b""):
        """Returns what follows `begin` in the next line, which begins so."""
        while b"\r\n" not in self.got:
            want(self.more(), f"closed after {shown(self.got)}")
        line = self.take(self.got.index(b"\r\n") + 2)
        want(line.startswith(begin), f"wanted {begin!r}, and {shown(line)} came")
        return line[len(begin):-2]

    def ping(self, verbose=False):
        self.send(b"PING\r\n")
        if verbose:
            self.line(b"+OK")
        self.line(b"PONG")

    def subscribe(self, subject, sid=b"1"):
        self.send(b"SUB %b %b\r\nPING\r\n" % (subject, sid))
        self.line(b"PONG")

    def message(self):
        """Returns the next message: subject, sid, reply or none, and payload."""
        *fields, size = self.line(b"MSG ").split(b" ")
        payload = self.take(int(size) + 2)
        want(payload.endswith(b"\r\n"), f"no line end after {shown(payload)}")
        return fields[0], fields[1], fields[2] if len(fields) > 2 else None, payload[:-2]

    def rest(self):
        """Returns all that comes before the end, or a reset."""
        while self.more():
            pass
        data, self.got = bytes(self.got), bytearray()
        return data

    def rest_now(self):
        """Returns what has come already."""
        self.socket.setblocking(False)
        with contextlib.suppress(BlockingIOError, ConnectionResetError):
            return self.socket.recv(1 << 18)
        return b""

    def reset(self):
        """Closes with a reset."""
        self.socket.setsockopt(socket.SOL_SOCKET, socket.SO_LINGER, struct.pack("ii", 1, 0))
        self.socket.close()

    def keep(self):
        self.kept.append(self)
        return self

    def close(self):
        self.socket.close()

    def __enter__(self):
        return self

    def __exit__(self, *_):
        self.close()


def client_on(server, worker, workers, **options):
    """Returns a client on this worker: connections are handed round in the order of their numbers."""
    for _ in range(2 * workers):
        client = Client(server, **options)
        if (client.number - 1) % workers == worker:
            return client
        client.close()
    raise Failed(f"no connection came to worker {worker} of {workers}")


def is_alive(server):
    """Shows that two new clients are served."""
    with Client(server) as one, Client(server) as two:
        one.subscribe(b"is.alive")
        two.send(b"PUB is.alive 2\r\nhi\r\n")
        want(one.message() == (b"is.alive", b"1", None, b"hi"), "another message came")


class Flood:
    """Messages of 16 bytes in writes of 64 KiB, and those who receive them."""

    EACH = 2048

    def __init__(self, messages, subject=b"flood", size=16):
        self.messages, self.size = messages, size
        numbers = [b"%0*d" % (size, it) for it in range(self.EACH)]
        self.piece = b"".join(b"PUB %b %d\r\n%b\r\n" % (subject, size, it) for it in numbers)
        self.pattern = b"".join(b"MSG %b 1 %d\r\n%b\r\n" % (subject, size, it) for it in numbers)
        self.twice = self.pattern * 2
        self.sent_bytes = len(self.piece) // self.EACH * messages
        self.wanted = len(self.pattern) // self.EACH * messages

    def is_front(self, data, at=0):
        """Whether this is what a receiver is to get after its first `at` bytes."""
        size = len(self.pattern)
        return all(data[it:it + size] == self.twice[(at + it) % size:][:len(data[it:it + size])]
                   for it in range(0, len(data), size))

    def run(self, publisher, receivers, meanwhile=None):
        """Publishes until every receiver has all."""
        run_floods([(self, publisher, receivers)], meanwhile)


class Publishing:
    """How far the publisher of a flood is."""

    def __init__(self, flood, client):
        self.flood, self.client, self.sent = flood, client, 0

    def step(self):
        """Writes what its socket takes, and returns whether all is written."""
        at, piece = self.sent % len(self.flood.piece), memoryview(self.flood.piece)
        with contextlib.suppress(BlockingIOError, InterruptedError):
            self.sent += self.client.socket.send(piece[at:at + self.flood.sent_bytes - self.sent])
        return self.sent == self.flood.sent_bytes


class Receiving:
    """How far a receiver of a flood is."""

    def __init__(self, flood, client):
        want(not client.got, f"before the first message: {shown(client.got)}")
        self.flood, self.client, self.got = flood, client, 0

    def step(self, most=None):
        """Reads what has come, at most this number of bytes, and returns whether all has."""
        try:
            data = self.client.socket.recv(most or len(self.flood.pattern))
        except BlockingIOError:
            return self.got == self.flood.wanted
        except ConnectionResetError:
            data = b""
        want(data, f"a receiver was closed after {self.got} of {self.flood.wanted} bytes")
        want(self.flood.is_front(data, self.got), f"after {self.got} right bytes a receiver got {shown(data)}")
        self.got += len(data)
        want(self.got <= self.flood.wanted, "a message came twice")
        return self.got == self.flood.wanted


def run_floods(floods, meanwhile=None):
    """Runs floods at once: each a flood, its publisher, and those who receive all of it. Each wrong, missing or doubled
    byte is a failure. `meanwhile` is called with the part that is written."""
    chooser = selectors.DefaultSelector()
    publishing = [Publishing(flood, publisher) for flood, publisher, _ in floods]
    receiving = [Receiving(flood, it) for flood, _, receivers in floods for it in receivers]
    everyone = [it.client for it in (*publishing, *receiving)]
    for it in everyone:
        it.socket.setblocking(False)
    for it in publishing:
        chooser.register(it.client.socket, selectors.EVENT_READ | selectors.EVENT_WRITE, it)
    for it in receiving:
        chooser.register(it.client.socket, selectors.EVENT_READ, it)
    left, last = len(publishing) + len(receiving), time.monotonic()
    whole = sum(it.flood.sent_bytes for it in publishing)
    while left:
        for key, events in chooser.select(1):
            if events & selectors.EVENT_WRITE and key.data.step():
                chooser.modify(key.fileobj, selectors.EVENT_READ, key.data)
                left -= 1
            if events & selectors.EVENT_READ:
                if isinstance(key.data, Publishing):
                    want(False, f"a publisher was sent {shown(key.data.client.rest_now()) or 'the end'}")
                left -= key.data.step()
            last = time.monotonic()
        if meanwhile:
            meanwhile(sum(it.sent for it in publishing) / whole)
        want(time.monotonic() < last + LIMIT,
             f"nothing moved for {LIMIT} s: {sum(it.sent for it in publishing)} of {whole} bytes sent, "
             f"received {[it.got for it in receiving]} of {floods[0][0].wanted} each")
    for it in everyone:
        it.socket.settimeout(LIMIT)
    for it in everyone:
        it.ping()


def storm(*counts):
    """Marks a check that takes a count of workers, and says with which it runs where none is asked for; maybe none."""
    def marked(check):
        check.counts = counts
        return check
    return marked


def asked_of(about):
    """Returns what the command line asks of a script."""
    words = argparse.ArgumentParser(description=about, formatter_class=argparse.RawDescriptionHelpFormatter)
    words.add_argument("program")
    words.add_argument("--divide", type=int, default=1, metavar="N", help="divide the counts by N")
    words.add_argument("--only", action="append", metavar="NAME", help="run this check alone, by its function's name")
    words.add_argument("--workers", type=int, metavar="N", help="run the storms alone, with N workers")
    words.add_argument("--times", type=int, default=1, metavar="N", help="run each N times")
    words.add_argument("--seed", type=int, default=SEED, metavar="N", help="what chance begins with")
    asked = words.parse_args()
    asked.program = os.path.abspath(asked.program)
    return asked


def jobs_of(asked, checks):
    """Returns each check that is to run, with its count of workers or none."""
    chosen = [it for it in checks if not asked.only or it.__name__ in asked.only]
    if asked.workers:
        jobs = [(it, asked.workers) for it in chosen if hasattr(it, "counts")]
    else:
        jobs = [(it, count) for it in chosen for count in getattr(it, "counts", [None])]
    return [job for job in jobs for _ in range(asked.times)]


def outcome(asked, check, workers):
    """Runs a check here, and returns the line that says whether it passed, failed or was skipped."""
    name = (check.__doc__ or check.__name__).strip().split("\n")[0].rstrip(".")
    name += f", {workers} worker{'s' if workers > 1 else ''}" if workers else ""
    begin = time.monotonic()
    try:
        more = check(asked.program, asked.divide, workers) if workers else check(asked.program, asked.divide)
        return f"passed: {name}{f': {more}' if more else ''} ({time.monotonic() - begin:.1f} s)"
    except Skipped as reason:
        return f"skipped: {name}: {reason}"
    except Exception as error:
        why = str(error) if isinstance(error, Failed) else traceback.format_exc()
        return f"FAILED: {name}: {why} ({time.monotonic() - begin:.1f} s)"


def outcome_apart(asked, check, workers):
    """Runs a check in a process of its own, and returns what `outcome` does."""
    words = [sys.executable, "-B", sys.argv[0], asked.program, "--divide", str(asked.divide), "--only", check.__name__,
             "--seed", str(asked.seed)]
    words += ["--workers", str(workers)] if workers else []
    it = subprocess.run(words, stdout=subprocess.PIPE, text=True, errors="backslashreplace")
    said = it.stdout.rstrip("\n").rpartition("\n")[0]
    if said and (it.returncode != 0) == said.startswith("FAILED:"):
        return said
    return f"FAILED: {check.__name__}: it ended with {it.returncode}, and its line is {said!r}"


def run(about, *checks, at_once=1):
    """Runs the checks of a script, each with the program and what divides its counts, a storm with a count of workers
    too. So many run at once, each in a process of its own."""
    global SEED
    asked = asked_of(about)
    SEED = asked.seed
    jobs = jobs_of(asked, checks)
    how = outcome if at_once == 1 or len(jobs) == 1 else outcome_apart
    counts = collections.Counter()
    with concurrent.futures.ThreadPoolExecutor(at_once) as pool:
        # (one that runs here is run by this thread)
        each = pool.map if how is outcome_apart else map
        for line in each(lambda job: how(asked, *job), jobs):
            counts[line.partition(":")[0]] += 1
            print(line, flush=True)
    print(f"{counts['passed']} passed, {counts['FAILED']} failed")
    raise SystemExit(1 if counts["FAILED"] else 0)

"""What the storms share: tenants, numbered messages, those who don't read, and another tenant who measures."""

import multiprocessing
import selectors
import statistics
import threading
import time

from clients import LIMIT, TEXTS, USER, Failed, client_on, shown, wait_for, want

OTHER = {"user": "other", "password": "other"}
# For how many seconds a pinger measures before anything happens.
QUIET = 0.7
TENANTS = {"accounts": {"A": {"users": [USER]}, "B": {"users": [OTHER]}}}


def spread(server, count, workers, **options):
    """Returns clients on all workers in turn."""
    return [client_on(server, it % workers, workers, **options) for it in range(count)]


def numbered(subject, numbers, size=16):
    """Returns messages whose payloads are these numbers."""
    return b"".join(b"PUB %b %d\r\n%0*d\r\n" % (subject, size, size, it) for it in numbers)


def deaf(server, subject, worker=0, workers=1):
    """Returns a subscriber that never reads, and whose socket takes little."""
    client = client_on(server, worker, workers, receive=4096)
    client.subscribe(subject)
    return client


def fill_sockets(server, publisher, subject):
    """Publishes what the sockets of those that don't read hold, so that little more than an outbox follows."""
    publisher.send(8 * (b"PUB %b 600000\r\n" % subject + bytes(600_000) + b"\r\n"))
    publisher.ping()
    wait_for(lambda: rests(server), "the server goes on writing to those that don't read")


def rests(server):
    """Returns whether a server has little to do for a while."""
    used = server.seconds()
    time.sleep(0.3)
    return server.seconds() - used < 0.05


def take_order(client, count, sids=(b"1",), size=16):
    """Takes messages, and shows that each subscription gets the numbers from 0 on, in order."""
    next_of = dict.fromkeys(sids, 0)
    for _ in range(count * len(next_of)):
        _, sid, _, payload = client.message()
        want(int(payload) == next_of[sid], f"subscription {sid!r} got {shown(payload)} in place of {next_of[sid]}")
        next_of[sid] += 1


class Working:
    """Threads, what they fail with, and whether they are to stop."""

    def __init__(self):
        self.stop, self.faults = threading.Event(), []

    def begin(self, work, *words):
        """Runs `work` in a thread, keeps what it fails with, and then has all stop."""
        def guarded():
            try:
                work(*words)
            except Exception as error:
                self.faults.append(error)
                self.stop.set()
        thread = threading.Thread(target=guarded, daemon=True)
        thread.start()
        return thread

    def end(self, threads, who):
        """Waits until threads have ended, and shows that nothing has failed."""
        for it in threads:
            it.join(LIMIT)
            want(not it.is_alive(), f"{who} hangs: {self.faults[:1]}")
        want(not self.faults, f"{self.faults[:1]}")


class Sending:
    """Writes from a thread what a server may not read at once, and keeps what it fails with."""

    def __init__(self, client, *pieces, times=1):
        self.client, self.pieces, self.times = client, pieces, times
        self.stop, self.fault, self.sent = False, None, 0
        self.thread = threading.Thread(target=self._send, daemon=True)
        self.thread.start()

    def _send(self):
        try:
            for _ in range(self.times):
                for it in self.pieces:
                    if self.stop:
                        return
                    self.client.send(it)
                self.sent += 1
        except OSError as error:
            self.fault = error

    def is_over(self):
        return not self.thread.is_alive()

    def join(self, why="a publisher isn't read to its end"):
        self.thread.join(LIMIT)
        want(self.is_over(), f"not within {LIMIT} s: {why}")


class Pinger:
    """Clients of another tenant in a process of its own. In turn each sends a PING, or publishes to nobody and sends a
    PING behind it, and measures how long its PONG takes."""

    def __init__(self, server, clients, asks=b"", every=0.002):
        how = multiprocessing.get_context("fork")
        self.pipe, other = how.Pipe()
        self.process = how.Process(target=self._ping, args=(clients, asks, other, every), daemon=True)
        self.begin = time.monotonic()
        self.process.start()
        # (what a quiet machine, or one that is busy with something else, takes)
        time.sleep(QUIET)

    @staticmethod
    def _ping(clients, asks, pipe, every):
        seen, fault = [], None
        try:
            while not pipe.poll():
                for it in clients:
                    begin = time.monotonic()
                    it.send(asks)
                    it.ping()
                    seen.append((begin, time.monotonic() - begin))
                time.sleep(every)
        except Exception as error:
            fault = repr(error)
        pipe.send((seen, fault))

    def stop(self):
        """Returns when each PING was sent, and how many milliseconds its answer took."""
        self.pipe.send(None)
        want(self.pipe.poll(LIMIT), f"another tenant's PING isn't answered within {LIMIT} s")
        seen, fault = self.pipe.recv()
        want(not fault, f"another tenant's PING: {fault}")
        self.process.join()
        return [(begin, 1000 * length) for begin, length in seen]

    def __enter__(self):
        return self

    def __exit__(self, *_):
        self.process.kill()


def pinger_on(server, workers, asks=b""):
    """Returns a pinger with a client on each worker."""
    return Pinger(server, [client_on(server, it, workers, user="other") for it in range(workers)], asks)


def longest(seen, begin=0, end=None):
    """Returns the longest answer to a PING that was sent in this time."""
    return max((length for sent, length in seen if sent >= begin and (end is None or sent < end)), default=0)


def median(seen, begin=0, end=None):
    """Returns the median of the answers to PINGs that were sent in this time."""
    return statistics.median([length for sent, length in seen if sent >= begin and (end is None or sent < end)] or [0])


class Hearing:
    """Reads what comes to many clients in one thread, and counts bytes; keeps none."""

    def __init__(self, clients):
        self.chooser, self.stop, self.bytes = selectors.DefaultSelector(), False, 0
        self.last, self.ended = time.monotonic(), []
        for it in clients:
            it.socket.setblocking(False)
            self.chooser.register(it.socket, selectors.EVENT_READ, it)
        self.thread = threading.Thread(target=self._hear, daemon=True)
        self.thread.start()

    def _hear(self):
        while not self.stop:
            for key, _ in self.chooser.select(0.1):
                try:
                    data = key.fileobj.recv(1 << 18)
                except BlockingIOError:
                    continue
                except ConnectionResetError:
                    data = b""
                if not data:
                    self.ended.append(key.data)
                    self.chooser.unregister(key.fileobj)
                self.bytes += len(data)
                self.last = time.monotonic()

    def wait(self, count, why, limit=LIMIT):
        """Waits until this number of bytes has come."""
        end = time.monotonic() + limit
        while self.bytes < count:
            want(not self.ended, f"{len(self.ended)} receivers were closed: {why}")
            want(time.monotonic() < end, f"{self.bytes} of {count} bytes within {limit} s: {why}")
            time.sleep(0.005)

    def end(self):
        self.stop = True
        self.thread.join()


def is_closed_within(client, seconds, text=TEXTS["slow"]):
    """Shows that the server ends a connection within so many seconds, with this text as the last or with none. Returns
    what came."""
    client.socket.settimeout(seconds)
    try:
        got = client.rest()
    except Failed:
        raise Failed(f"not closed within {seconds} s after {shown(client.got)}") from None
    finally:
        client.socket.settimeout(LIMIT)
    if b"-ERR" in got:
        want(got.endswith(text), f"the last that came is {shown(got)}")
    return got

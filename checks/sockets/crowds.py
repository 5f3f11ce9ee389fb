#!/usr/bin/env python3
"""Crowds: as many sessions as there may be, all of which publish and receive at once; sockets that mostly say nothing; and
connections that come and go all the time. Nothing is lost, and nobody is closed."""

import collections
import resource
import selectors
import socket
import statistics
import time

from clients import LIMIT, Client, Server, is_alive, run, shown, storm, want
from storming import TENANTS, Pinger

# How many sessions there may be, of which a pinger of another tenant has some.
SESSIONS = 4_096
SECONDS = 60
# How many messages a session sends at once, and how many sessions send before what has come is read.
BURST, TURN = 4, 256
SOCKETS = 20_000
TALKING = 4_000
# How many connections come and go, and how many stand meanwhile.
CHURN, STANDING = 20_000, 64


def have_descriptors(wanted):
    """Lets this process, and what it starts, have a number of descriptors, or as many as there are. Returns how many."""
    soft, hard = resource.getrlimit(resource.RLIMIT_NOFILE)
    if hard != resource.RLIM_INFINITY and hard < wanted:
        try:
            resource.setrlimit(resource.RLIMIT_NOFILE, (wanted, wanted))
            return wanted
        except (ValueError, PermissionError):
            wanted = hard
    resource.setrlimit(resource.RLIMIT_NOFILE, (max(soft, wanted), hard))
    return max(soft, wanted)


class Ring:
    """Sessions each of which publishes to the next one, and receives from the one before it: numbers, in order."""

    def __init__(self, clients):
        self.clients, self.count = clients, len(clients)
        self.sent, self.got = [0] * self.count, [0] * self.count
        self.rest = [b""] * self.count
        self.chooser = selectors.DefaultSelector()
        for place, it in enumerate(clients):
            it.send(b"SUB to.%d 1\r\n" % place)
        for place, it in enumerate(clients):
            it.ping()
            it.socket.setblocking(False)
            self.chooser.register(it.socket, selectors.EVENT_READ, place)

    def publish(self, place):
        to, number = (place + 1) % self.count, self.sent[place]
        piece = b"".join(b"PUB to.%d 8\r\n%08d\r\n" % (to, number + it) for it in range(BURST))
        want(self.clients[place].socket.send(piece) == len(piece), "a socket has no room for a short piece")
        self.sent[place] += BURST

    def read(self, place):
        """Reads what has come to one, and shows that it is what comes next."""
        try:
            data = self.rest[place] + self.clients[place].socket.recv(1 << 16)
        except ConnectionResetError:
            data = self.rest[place]
        want(len(data) > len(self.rest[place]), f"session {place} was closed after {self.got[place]} messages")
        head = b"MSG to.%d 1 8\r\n" % place
        size = len(head) + 10
        count = len(data) // size
        wanted = b"".join(head + b"%08d\r\n" % (self.got[place] + it) for it in range(count))
        want(data[:count * size] == wanted, f"session {place} got {shown(data)} after {self.got[place]} messages")
        self.rest[place] = data[count * size:]
        self.got[place] += count

    def read_ready(self, patience=0):
        for key, _ in self.chooser.select(patience):
            self.read(key.data)

    def run(self, seconds):
        """Has all publish in turn for so long, and waits until all has come."""
        end, place = time.monotonic() + seconds, 0
        while time.monotonic() < end:
            for _ in range(TURN):
                self.publish(place)
                place = (place + 1) % self.count
            self.read_ready()
        end = time.monotonic() + LIMIT
        while sum(self.got) < sum(self.sent):
            want(time.monotonic() < end, f"{sum(self.got)} of {sum(self.sent)} messages came within {LIMIT} s")
            self.read_ready(0.1)
        want(self.got == [self.sent[it - 1] for it in range(self.count)], "one has more or fewer than it was sent")
        for it in self.clients:
            want(is_open(it.socket), "a session was closed")
            it.close()
        self.chooser.close()
        return sum(self.sent)


@storm(2)
def everyone_at_once(program, divide, workers):
    """4,096 sessions publish and receive at once for a minute, each what the one before it sends"""
    have_descriptors(SESSIONS + 200)
    with Server(program, "--workers", workers, policy=TENANTS) as server:
        probes = [Client(server, user="other") for _ in range(workers)]
        ring = Ring([Client(server) for _ in range(SESSIONS - workers)])
        with Pinger(server, probes) as pinger:
            count = ring.run(SECONDS / divide)
            times = sorted(length for _, length in pinger.stop())
    late = times[len(times) * 99 // 100]
    return f"{count} messages, an answer to another tenant within {statistics.median(times):.1f} ms, 99 of 100 within {late:.1f}"


@storm(2)
def half_say_nothing(program, divide, workers):
    """20,000 sockets, or as many as there may be: half say nothing, 4,000 are sessions that publish, the others send PING"""
    sockets = min(SOCKETS, have_descriptors(SOCKETS + 500) - 500)
    with Server(program, "--workers", workers, "--connections", sockets + 100) as server:
        opened = [opened_from(server, it % 8 + 2) for it in range(sockets // 2)]
        ring = Ring([Client(server) for _ in range(TALKING)])
        asking = [opened_from(server, it % 8 + 2) for it in range(sockets - sockets // 2 - TALKING)]
        count = ring.run(5 / divide)
        for it in asking:
            it.sendall(b"PING\r\n")
        for it in asking:
            want(answer_of(it).endswith(b"PONG\r\n"), "a PING before CONNECT isn't answered")
        for it in opened:
            it.setblocking(False)
            want(it.recv(1000).startswith(b"INFO ") and is_open(it), "one that says nothing was closed")
        is_alive(server)
        memory = server.kilobytes()
        for it in opened + asking:
            it.close()
    return f"{sockets} sockets, {count} messages, the server has {memory // 1024} MiB"


def opened_from(server, place):
    """Returns a socket from an address of its own, since one address has too few ports."""
    it = socket.socket()
    it.settimeout(LIMIT)
    it.bind((f"127.0.0.{place}", 0))
    it.connect(server.address)
    return it


def answer_of(it):
    """Returns what a socket is sent, up to a PONG."""
    data = b""
    while not data.endswith(b"PONG\r\n"):
        more = it.recv(1000)
        want(more, f"closed after {shown(data)}")
        data += more
    return data


def is_open(it):
    """Whether the peer of a socket with nothing to read hasn't ended."""
    try:
        return it.recv(1000) != b""
    except BlockingIOError:
        return True


@storm(2)
def churn(program, divide, workers):
    """20,000 connections that come, are sent what they publish, and go: 64 stand at any time"""
    talk = Client.connecting() + b"SUB churn.%d 1\r\nPUB churn.%d 2\r\nhi\r\nPING\r\n"
    count = CHURN // divide
    with Server(program, "--workers", workers) as server, Client(server) as watcher:
        before, begin = server.descriptors(), time.monotonic()
        standing = collections.deque()
        for number in range(count):
            it = socket.create_connection(server.address, LIMIT)
            it.sendall(talk % (number, number))
            standing.append((number, it))
            if len(standing) > STANDING:
                leave(*standing.popleft())
        while standing:
            leave(*standing.popleft())
        took = time.monotonic() - begin
        watcher.ping()
        is_alive(server)
        end = time.monotonic() + LIMIT
        while server.descriptors() > before:
            want(time.monotonic() < end, f"{server.descriptors()} descriptors are open, and {before} were before")
            time.sleep(0.02)
    return f"{count / took:.0f} a second"


def leave(number, it):
    """Shows that a connection was sent its message, and closes it."""
    got = answer_of(it)
    want(got.endswith(b"\r\nMSG churn.%d 1 2\r\nhi\r\nPONG\r\n" % number), f"connection {number} got {shown(got)}")
    it.close()


if __name__ == "__main__":
    run(__doc__, everyone_at_once, half_say_nothing, churn)

#!/usr/bin/env python3
"""Clients whose host vanishes: the system finds that out, and natsd lets them go.

Server and clients have a network namespace each. Where nobody may make one, a line says so and nothing is counted."""

import contextlib
import json
import os
import pathlib
import re
import subprocess
import time

from clients import TEXTS, Client, Server, is_alive, raise_descriptors, run, wait_for, want
from hosting import ip, lacks_namespaces, skip_if, within
from telling import line_of

SERVER, CLIENT = "10.79.0.1", "10.79.0.2"
# --keepalive of these checks. A client that has vanished is gone after twice as long.
SECONDS = 3
LONGEST = 2 * SECONDS
SESSIONS = 4096


def name_of(address):
    """Returns the namespace of an address."""
    return f"natsd-{os.getpid()}-{address.rpartition('.')[2]}"


class Served(Server):
    """A server with a namespace of its own."""

    def command(self, program, listen, words):
        return ["ip", "netns", "exec", name_of(SERVER), *super().command(program, f"{SERVER}:0", words)]


@contextlib.contextmanager
def hosts():
    """Two hosts and a link between them."""
    try:
        for address in (SERVER, CLIENT):
            ip("netns", "add", name_of(address))
            ip("-n", name_of(address), "link", "set", "lo", "up")
        peer = ("type", "veth", "peer", "name", "veth0", "netns", name_of(CLIENT))
        ip("-n", name_of(SERVER), "link", "add", "veth0", *peer)
        for address in (SERVER, CLIENT):
            ip("-n", name_of(address), "address", "add", f"{address}/24", "dev", "veth0")
            ip("-n", name_of(address), "link", "set", "veth0", "up")
        yield
    finally:
        for address in (SERVER, CLIENT):
            ip("netns", "delete", name_of(address), check=False)


def vanish():
    ip("-n", name_of(CLIENT), "link", "set", "veth0", "down")


def closings(server):
    """Returns the lines of sessions that have ended."""
    with open(server.errors.name, "rb") as it:
        lines = [json.loads(line) for line in it.read().splitlines(keepends=True) if line.endswith(b"\n")]
    return [it for it in lines if it["event"] == "closed"]


def connected(server, address=CLIENT, **options):
    with within(name_of(address)):
        return Client(server, **options)


def seconds_until(what, why, server):
    """Returns how long it takes until something holds: LONGEST and two seconds at most, on a quiet machine."""
    # The system ends connections in time, whatever else it does. What the server has to do then, and this process to see it,
    # takes longer where other programs have the processors: by as much as the threads of both waited for one.
    def waited():
        return server.scheduled()[1] + int(pathlib.Path("/proc/self/schedstat").read_text().split()[1])

    begin, before = time.monotonic(), waited()
    wait_for(what, why, 4 * LONGEST)
    took, more = time.monotonic() - begin, (waited() - before) / 1e9
    want(took < LONGEST + 2 + more, f"{why} after {took:.1f} s, and {more:.1f} s went to other programs")
    return took


def silent(program, divide):
    """4,096 clients that have vanished are gone within the time, and their sessions are free for others"""
    raise_descriptors(2 * SESSIONS + 200)
    with hosts(), Served(program, "--keepalive", SECONDS) as server:
        many = [connected(server) for _ in range(SESSIONS)]
        with within(name_of(SERVER)), Client(server, connect=False) as one:
            one.send(Client.connecting())
            want(one.rest() == TEXTS["connections"], "one more is let in")
            line_of(server, "limit", text="Maximum Connections Exceeded", level="error", conn=one.number)
        vanish()
        # (a connection that doesn't linger has one descriptor, and all others are the server's own)
        took = seconds_until(lambda: server.descriptors() < 100, "their sockets are closed", server)
        want(took > SECONDS / 2, f"they are gone after {took:.1f} s")
        others = [connected(server, SERVER) for _ in range(100)]
        others[0].ping()
        want(len(many) == SESSIONS, "some were let go here")
    return f"gone after {took:.1f} s"


def unsent(program, divide):
    """Bytes that a vanished client doesn't acknowledge end it within the time, and its end is told"""
    with hosts(), Served(program, "--keepalive", SECONDS, "--log", "all") as server:
        gone, stays = connected(server), connected(server, SERVER)
        gone.subscribe(b"news")
        vanish()
        stays.send(b"PUB news 2\r\nhi\r\n")
        took = seconds_until(lambda: closings(server), "its end is told", server)
        line = closings(server)[0]
        want(line["conn"] == gone.number and line["reason"] == "socket failed", f"the line is {line}")
        stays.ping()
        want(len(closings(server)) == 1, f"there are {closings(server)}")
    return f"gone after {took:.1f} s"


def timers():
    """Returns what the system has in mind about the sockets of the server's host."""
    with within(name_of(SERVER)):
        return subprocess.run(["ss", "-Htno"], capture_output=True, text=True, check=True).stdout


def off(program, divide):
    """With --keepalive off nobody looks for silent clients"""
    with hosts(), Served(program, "--keepalive", "off") as server:
        connected(server).keep()
        count = server.descriptors()
        wait_for(lambda: "timer" not in timers(), f"no timer runs; there are {timers()}", 5)
        vanish()
        time.sleep(LONGEST + 2)
        want(server.descriptors() == count, "its socket is closed")


def by_default(program, divide):
    """By default a silent client is probed after 30 seconds, and one that answers stays"""
    with hosts(), Served(program) as server:
        one = connected(server)
        wait_for(lambda: re.search(r"timer:\(keepalive,(2\d|30)sec,0\)", timers()), f"the timers are {timers()}", 5)
        one.ping()
    with hosts(), Served(program, "--keepalive", 1) as server:
        one = connected(server)
        time.sleep(6)
        one.ping()


if __name__ == "__main__":
    skip_if(lacks_namespaces())
    run(__doc__, silent, unsent, off, by_default)

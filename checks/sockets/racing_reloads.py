#!/usr/bin/env python3
"""Two inputs of policies. A policy of each is prepared in one epoch, and then they come into force in either order.

The program `test_held` holds each policy between the two: it makes FILE.held beside the input FILE, and waits for FILE.go. Its
history holds 8 entries, so that it rotates all the time.
"""

import os
import pathlib

from clients import Client, is_alive, run, wait_for, want
from held_worker import TURNS, Held

DENIED = b"-ERR 'Permissions Violation for Subscription to \"b\"'"
ROUNDS = 50


def policy(*subjects):
    """Returns a policy whose user may subscribe to these."""
    return {"accounts": {"A": {"users": [{"user": "demo", "password": "demo", "permissions": {"subscribe": subjects}}]}}}


FEWER, WHOLE = policy("a", "is.alive"), policy("a", "b", "is.alive")


class Racing(Held):
    """The program `test_held` with two pipes as inputs. The first policy comes by the first."""

    def __init__(self, program):
        self.inputs = []
        super().__init__(program, TURNS, policy=WHOLE)

    def command(self, program, listen, words):
        self.files = [pathlib.Path(self.room.name) / name for name in ("one", "other")]
        for it in self.files:
            os.mkfifo(it)
        return [*super().command(program, listen, words), *map(str, self.files)]

    def frame(self, policy, into=0):
        # (a pipe opens once the program has opened it)
        self.inputs = self.inputs or [open(it, "wb", buffering=0) for it in self.files]
        self.process.stdin, stdin = self.inputs[into], self.process.stdin
        try:
            super().frame(policy)
        finally:
            self.process.stdin = stdin

    def mark(self, into, name):
        return self.files[into].with_name(f"{self.files[into].name}.{name}")

    def hold(self, *policies):
        """Hands a policy in by each input, and waits until both are prepared."""
        for into, it in enumerate(policies):
            self.frame(it, into)
        for into in range(len(policies)):
            wait_for(self.mark(into, "held").exists, f"the policy of input {into} is prepared")

    def go(self, *inputs):
        for into in inputs:
            self.mark(into, "go").touch()

    def epoch(self, number, *removed):
        """Wants the lines of a reload."""
        for wanted in (f"epoch {number}", *removed):
            want((line := self.line()) == wanted, f"printed {line}, and not {wanted}")


def chat(client, *subjects):
    """Messages to itself, so many that the history rotates several times."""
    for it in range(20):
        for subject in subjects:
            client.send(b"PUB %b 2\r\n%02d\r\n" % (subject, it))
            want(client.message() == (subject, client.sids[subject], None, b"%02d" % it), "another message came")


def subscriber(server):
    client = Client(server)
    client.sids = {b"a": b"1", b"b": b"2"}
    for subject, sid in client.sids.items():
        client.subscribe(subject, sid)
    return client


def fewer_first(program, divide):
    """The policy with fewer subscriptions comes first: it ends one, and the other brings nothing back"""
    with Racing(program) as server, subscriber(server) as client:
        server.hold(FEWER, WHOLE)
        chat(client, b"a", b"b")
        server.go(0)
        server.epoch(2, f"removed {client.number} 2 no allow")
        chat(client, b"a")
        server.go(1)
        server.epoch(3)
        client.send(b"PUB b 0\r\n\r\n")
        chat(client, b"a")
        client.subscribe(b"b", b"2")
        chat(client, b"a", b"b")


def fewer_last(program, divide):
    """It comes last: the other ends nothing, and it ends one"""
    with Racing(program) as server, subscriber(server) as client:
        server.hold(FEWER, WHOLE)
        chat(client, b"a", b"b")
        server.go(1)
        server.epoch(2)
        chat(client, b"a", b"b")
        server.go(0)
        server.epoch(3, f"removed {client.number} 2 no allow")
        client.send(b"SUB b 2\r\n")
        want(client.line() == DENIED, "the subscription was answered otherwise")
        client.send(b"PUB b 0\r\n\r\n")
        chat(client, b"a")


def at_once(program, divide):
    """Both at once, again and again: each is whole, its lines stand together, and the last is in force"""
    lasts = [0, 0]
    with Racing(program) as server, subscriber(server) as client:
        epoch, ended = 1, f"removed {client.number} 2 no allow"
        for _ in range(ROUNDS):
            server.hold(FEWER, WHOLE)
            server.go(0, 1)
            lines = [server.line() for _ in range(3)]
            ways = [[f"epoch {epoch + 1}", ended, f"epoch {epoch + 2}"], [f"epoch {epoch + 1}", f"epoch {epoch + 2}", ended]]
            want(lines in ways, f"printed {lines}")
            epoch, last = epoch + 2, ways.index(lines)
            lasts[last] += 1
            client.send(b"SUB b 2\r\nPING\r\n")
            want((line := client.line()) == (DENIED if last else b"PONG"), f"{line} came, after {lines}")
            if last:
                client.line(b"PONG")
                server.hold(WHOLE)
                server.go(0)
                epoch += 1
                server.epoch(epoch)
                client.subscribe(b"b", b"2")
            chat(client, b"a", b"b")
    return f"the whole policy was the last {lasts[0]} times of {ROUNDS}"


def inputs_end(program, divide):
    """It serves while one of its inputs goes on, and stops once both have ended"""
    with Racing(program) as server:
        server.inputs[0].close()
        server.frame(WHOLE, 1)
        wait_for(server.mark(1, "held").exists, "the policy is prepared")
        server.go(1)
        server.epoch(2)
        is_alive(server)
        server.inputs[1].close()
        want(server.line() == "stopped", f"printed {server.lines}")
        want(server.status() == 0, f"status {server.status()}")


def bad_frame(program, divide):
    """A wrong frame of one input ends it all, once the other has no more"""
    with Racing(program) as server, Client(server) as client:
        server.inputs[1].write(b"x\n")
        client.rest()
        server.inputs[0].close()
        want(server.line() == "bad frame", f"printed {server.lines}")
        want(server.status() == 1, f"status {server.status()}")


if __name__ == "__main__":
    run(__doc__.split("\n")[0], fewer_first, fewer_last, at_once, inputs_end, bad_frame)

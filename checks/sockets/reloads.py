#!/usr/bin/env python3
"""Reloads each 10 ms under the traffic of 100 connections: no message crosses a policy that denies it.

Each writer's turn (`reloading`) has a message on `post` and one on `read`. Odd policies deny writers to publish on `post`,
and readers to be sent `read`; even ones admit both. Then

- each decided message on `post` was accepted exactly where n is even, and else answered with its text;
- no reader gets a decided message on `read` of an odd n, and each gets every one of an even n, once, as it gets every
  accepted `post` and mark: readers subscribe to `>`, so that no reload takes the subscription away.

Odd policies don't have the user `guest` either. Each connection of a guest that `gone` names has its text as the last
that it is sent, and no guest's connection is closed without one; the next connects again.
"""

import contextlib
import time

from clients import LIMIT, TEXTS, Client, Failed, Server, is_alive, run, shown, want
from reloading import Reloading, rounds_of

WRITERS, READERS, GUESTS = 66, 4, 30


def policy(number):
    """Returns policy `number`."""
    odd = number % 2
    users = [
        {"user": "demo", "password": "demo"},
        {"user": "writer", "password": "writer", "permissions": {
            "publish": {"allow": ["read", "post", f"mark.{number}"], "deny": ["post"] if odd else []}}},
        {"user": "reader", "password": "reader", "permissions": {"subscribe": {"deny": ["read"] if odd else []}}},
    ]
    if not odd:
        users.append({"user": "guest", "password": "guest"})
    return {"accounts": {"A": {"users": users}}}


class Traffic(Reloading):
    """What is known so far, by all threads."""

    def __init__(self, server):
        super().__init__(server, policy, WRITERS)
        self.gone, self.closed = set(), set()
        # by a message's text: whether every reader has to get it, or none may
        self.due, self.forbidden = set(), set()

    def note(self, number, subjects, texts, answers, is_decided):
        """What a writer's turn decides."""
        denied = b"-ERR 'Permissions Violation for Publish to \"%b\"'"
        for to, answer in zip(subjects, answers):
            want(answer in (b"+OK", denied % to), f"a publish on {to} was answered {shown(answer)}")
        want(answers[2] == b"+OK", "a publish on read was refused, which every policy admits")
        accepted = [it == b"+OK" for it in answers]
        # (readers get what was accepted, but for read, which a policy may keep from them)
        self.due.update(texts[it] for it in (0, 1, 3) if accepted[it])
        self.forbidden.update(texts[it] for it in (0, 1, 3) if not accepted[it])
        if is_decided:
            odd = number % 2
            want(accepted[1] == (not odd), f"policy {number} {'denies' if odd else 'admits'} post, "
                 f"and between its two marks a publish on post was answered {answers[1]!r}")
            (self.forbidden if odd else self.due).add(texts[2])


def read(traffic, texts, ready):
    """A reader: notes the text of each message until `last` comes."""
    client = Client(traffic.server, user="reader")
    client.subscribe(b">")
    ready.release()
    while True:
        subject, _, _, text = client.message()
        if subject == b"last":
            break
        texts.append(text)
    client.ping()
    client.close()


def visit(traffic):
    """Guests, one after another: each is closed with its text, or was refused with it."""
    while not traffic.stop.is_set():
        client = Client(traffic.server, connect=False)
        client.send(Client.connecting("guest") + b"PING\r\n")
        first = client.line()
        if first == b"PONG":
            ended = False
            while not ended and not traffic.stop.is_set():
                client.socket.settimeout(0.2)
                with contextlib.suppress(Failed):
                    ended = not client.more()
            client.socket.settimeout(LIMIT)
            # (at the end of the check a PING shows whether it was closed before)
            if not ended:
                with contextlib.suppress(ConnectionError):
                    client.send(b"PING\r\n")
                while not ended and not client.got.endswith(b"PONG\r\n"):
                    ended = not client.more()
            if ended:
                want(client.got == TEXTS["authorization"], f"a guest was closed with {shown(client.got)}")
                with traffic.lock:
                    traffic.closed.add(client.number)
        else:
            want(first + b"\r\n" == TEXTS["authorization"], f"a guest's CONNECT was answered {shown(first)}")
            want(client.rest() == b"", "something comes after the text")
            time.sleep(0.03)
        client.close()


def reloads(program, divide):
    """No message crosses a policy that denies it, and each closing has its text"""
    rounds = rounds_of(divide)
    with Server(program, policy=policy(0), *("--workers", 2)) as server:
        traffic = Traffic(server)
        heard = [[] for _ in range(READERS)]
        readers = traffic.begin_readers(read, [(it,) for it in heard])
        others = [traffic.begin(traffic.write, it, (b"post", b"read"), traffic.note) for it in range(WRITERS)]
        others += [traffic.begin(visit, traffic) for _ in range(GUESTS)]
        traffic.reload(rounds, lambda line: gone(traffic, line))
        traffic.end(others, "a client")
        # (the last policy is even: nobody is closed, and all the lines of earlier ones have come before this)
        server.frame("{}")
        while (line := server.line()) != "config WrongType /accounts":
            gone(traffic, line)
        with Client(server) as last:
            last.send(b"PUB last 0\r\n\r\n")
            traffic.end(readers, "a reader")
        judge(traffic, heard)
        is_alive(server)
    return (f"{rounds} reloads, {traffic.decided[1]} pairs of messages decided under policies that deny, "
            f"{traffic.decided[0]} under those that admit, {len(traffic.gone)} closings")


def gone(traffic, line):
    """Notes what a reload's line says beside its epoch."""
    words = line.split(" ")
    want(words[0] == "gone" and len(words) == 2, f"a reload printed {line!r}")
    want(int(words[1]) not in traffic.gone, f"printed twice: {line!r}")
    traffic.gone.add(int(words[1]))


def judge(traffic, heard):
    """What each reader has got against what was decided."""
    traffic.want_decided()
    for texts in heard:
        got = set(texts)
        want(len(got) == len(texts), "a message came twice")
        crossed = got & traffic.forbidden
        want(not crossed, f"{len(crossed)} messages crossed a policy that denies them, {sorted(crossed)[:3]}")
        lost = traffic.due - got
        want(not lost, f"{len(lost)} accepted messages were lost, {sorted(lost)[:3]}")
    # (who was answered and then named gone was told so)
    unnamed = traffic.closed - traffic.gone
    want(not unnamed, f"closed with a text, and not printed as gone: {sorted(unnamed)[:5]}")
    silent = traffic.gone - traffic.closed
    want(not silent, f"printed as gone, and not told: {sorted(silent)[:5]}")
    want(traffic.gone, "no guest was ever closed by a reload")


if __name__ == "__main__":
    run(__doc__.split("\n")[0], reloads)

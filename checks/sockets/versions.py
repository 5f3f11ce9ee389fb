#!/usr/bin/env python3
"""Reloads between policies of version 1 and 2 under traffic.

Odd policies are of version 1. Even ones are of version 2: a mapping sends `in` on under `out`, and the default permissions
deny publishing on `denied`. Writers publish numbered messages on `in` all the while. Each reader gets each of them once, a
writer's in order, under one of the two subjects. Behind the line of each reload a probe publishes on both subjects: what comes
of that is what this policy says.
"""

import threading

from clients import LIMIT, Client, Server, is_alive, run, want

WRITERS, READERS = 8, 2
ROUNDS = 400
PIECE = 20
DENIAL = b"-ERR 'Permissions Violation for Publish to \"denied\"'"


def policy(number):
    """Returns policy `number`."""
    account = {"users": [{"user": "demo", "password": "demo"}]}
    if number % 2:
        return {"version": 1, "accounts": {"A": account}}
    return {"version": 2, "default_permissions": {"publish": {"deny": "denied"}},
            "accounts": {"A": {**account, "mappings": {"in": "out"}}}}


def pub(subject, text):
    return b"PUB %b %d\r\n%b\r\n" % (subject, len(text), text)


def write(server, name, stop, written):
    """A writer: pieces of numbered messages, each after the answer to the last."""
    client, count = Client(server), 0
    while not stop.is_set():
        client.send(b"".join(pub(b"in", b"%d %d" % (name, count + at)) for at in range(PIECE)))
        client.ping()
        count += PIECE
    written[name] = count


def read(client, heard):
    """A reader: subject and text of all messages up to the last."""
    while (message := client.message())[3] != b"end":
        heard.append((message[0], message[3]))


def probe(client, number):
    """Publishes under policy `number`."""
    client.send(pub(b"in", b"probe %d" % number) + pub(b"denied", b"denied %d" % number) + b"PING\r\n")
    if number % 2 == 0:
        want(client.line() == DENIAL, f"policy {number} denies nothing")
    want(client.line() == b"PONG", f"no PONG under policy {number}")


def judge(heard, written, rounds):
    """Looks at what one reader got."""
    by_writer = [[] for _ in range(WRITERS)]
    for subject, text in heard:
        kind, number = text.split(b" ")
        number = int(number)
        if kind == b"probe":
            want(subject == (b"in" if number % 2 else b"out"), f"{text} came under {subject}")
        elif kind == b"denied":
            want(number % 2 and subject == b"denied", f"{text} came under {subject}")
        else:
            want(subject in (b"in", b"out"), f"{text} came under {subject}")
            by_writer[int(kind)].append(number)
    for name, numbers in enumerate(by_writer):
        want(numbers == [*range(written[name])], f"of writer {name} came {len(numbers)} of {written[name]}, or out of order")
    for kind, wanted in (b"probe", rounds), (b"denied", rounds // 2):
        came = sum(text.startswith(kind + b" ") for _, text in heard)
        want(came == wanted, f"{came} of {wanted} messages of {kind} came")


def versions(program, divide):
    """Each message comes once, by the version that was in force"""
    rounds = max(ROUNDS // divide, 40) // 2 * 2
    with Server(program, policy=policy(1), *("--workers", 2)) as server:
        stop, written, heard, readers = threading.Event(), {}, [[] for _ in range(READERS)], []
        for it in heard:
            client = Client(server)
            client.subscribe(b">")
            readers.append(threading.Thread(target=read, args=(client, it), daemon=True))
        writers = [threading.Thread(target=write, args=(server, name, stop, written), daemon=True) for name in range(WRITERS)]
        for it in readers + writers:
            it.start()
        with Client(server) as client:
            for number in range(2, rounds + 2):
                server.frame(policy(number))
                want(server.line() == f"epoch {number}", f"printed {server.lines[-2:]}")
                probe(client, number)
            stop.set()
            for it in writers:
                it.join(LIMIT)
                want(not it.is_alive(), "a writer hangs")
            client.send(pub(b"last", b"end"))
            for it in readers:
                it.join(LIMIT)
                want(not it.is_alive(), "a reader hangs")
        want(len(written) == WRITERS, f"a writer has failed: {sorted(written)}")
        for it in heard:
            judge(it, written, rounds)
        is_alive(server)
    mapped = sum(subject == b"out" for subject, _ in heard[0])
    want(0 < mapped < len(heard[0]) - rounds, f"{mapped} of {len(heard[0])} messages were mapped")
    return f"{rounds} reloads, {sum(written.values())} messages, {mapped} deliveries under the mapped subject"


if __name__ == "__main__":
    run(__doc__.split("\n")[0], versions)

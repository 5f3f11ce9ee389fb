#!/usr/bin/env python3
"""Streams between accounts over sockets: under reloads each 10 ms with 100 connections no message crosses a policy that
doesn't admit it, and each one that is admitted comes once.

Each writer's turn (`reloading`) has a message on `out` and one on `kept`. Under even policies account IN imports `out`
under the prefix of the number's last digit, under odd ones the export is taken away with its import. Then

- no reader of IN gets a decided message of an odd n, and each gets every one of an even n, once, under its prefix;
- a reader of the writers' own account gets each accepted message, whatever the policy is;
- nobody of IN gets what has no export, and nobody of another account anything.
"""

from clients import LIMIT, Client, Failed, Server, is_alive, run, shown, want
from reloading import Reloading, rounds_of

WRITERS, READERS = 90, 8


def prefix_of(number):
    return f"from{number % 10}"


def policy(number):
    """Returns policy `number`."""
    writer = {"user": "writer", "password": "writer", "permissions": {"publish": ["out", "kept", f"mark.{number}"]}}
    own = {"user": "demo", "password": "demo"}
    importer, stranger = {"user": "reader", "password": "reader"}, {"user": "stranger", "password": "stranger"}
    exported = {"account": "OUT", "subject": "out"}
    is_open = number % 2 == 0
    return {"accounts": {
        "OUT": {"users": [own, writer], "exports": [{"stream": "out", "accounts": ["IN"]}] if is_open else []},
        "IN": {"users": [importer], "imports": [{"stream": exported, "prefix": prefix_of(number)}] if is_open else []},
        "STRANGE": {"users": [stranger]},
    }}


class Traffic(Reloading):
    """What is known so far, by all threads."""

    def __init__(self, server):
        super().__init__(server, policy, WRITERS)
        self.accepted = set()
        # by a message's text: the subject under which a reader of IN has to get it, or that it may not
        self.due, self.forbidden = {}, set()

    def note(self, number, _, texts, answers, is_decided):
        """What a writer's turn decides."""
        want(answers[1] == answers[2] == b"+OK", "a publish was refused that every policy admits")
        self.accepted.update(text for text, answer in zip(texts, answers) if answer == b"+OK")
        self.forbidden.update((texts[0], texts[2], texts[3]))
        if is_decided and number % 2:
            self.forbidden.add(texts[1])
        elif is_decided:
            self.due[texts[1]] = f"{prefix_of(number)}.out".encode()


def read(traffic, user, heard, ready):
    """A reader: notes the subject of each message by its text, until `last` comes or it is told to end."""
    client = Client(traffic.server, user=user)
    client.subscribe(b">")
    # (the stranger hears nothing before the end)
    client.socket.settimeout(10 * LIMIT)
    ready.release()
    while True:
        subject, _, _, text = client.message()
        if text == b"last":
            break
        want(text not in heard, f"{shown(text)} came twice to {user}")
        heard[text] = subject
    client.ping()
    client.close()


def reloads(program, divide):
    """No message crosses an import row that the policy in force doesn't have, and each comes once across one that it has"""
    rounds = rounds_of(divide)
    with Server(program, "--workers", 2, policy=policy(0)) as server:
        traffic = Traffic(server)
        users = ["demo", "stranger"] + ["reader"] * READERS
        heard = [{} for _ in users]
        readers = traffic.begin_readers(read, zip(users, heard))
        writers = [traffic.begin(traffic.write, it, (b"out", b"kept"), traffic.note) for it in range(WRITERS)]
        traffic.reload(rounds, unwanted)
        traffic.end(writers, "a writer")
        # (the last policy is even: what demo publishes on `out` crosses to the readers, and the stranger has one of its own)
        for user, subject in (("demo", b"out"), ("stranger", b"x")):
            with Client(server, user=user) as last:
                last.send(b"PUB %b 4\r\nlast\r\n" % subject)
                last.ping()
        traffic.end(readers, "a reader")
        judge(traffic, *heard)
        is_alive(server)
    return (f"{rounds} reloads, {traffic.decided[1]} messages decided under policies without the export, "
            f"{traffic.decided[0]} under those with it")


def unwanted(line):
    raise Failed(f"a reload printed {line!r}")


def judge(traffic, own, strange, *imported):
    """What each reader has got against what was decided."""
    traffic.want_decided()
    want(set(own) == traffic.accepted, f"the writers' own account got {len(own)} of {len(traffic.accepted)} messages")
    want(not strange, f"an account without an import got {len(strange)} messages")
    for heard in imported:
        crossed = set(heard) & traffic.forbidden
        want(not crossed, f"{len(crossed)} messages crossed a policy that doesn't admit them, {sorted(crossed)[:3]}")
        lost = set(traffic.due) - set(heard)
        want(not lost, f"{len(lost)} messages were lost, {sorted(lost)[:3]}")
        wrong = [text for text, subject in traffic.due.items() if heard[text] != subject]
        want(not wrong, f"{len(wrong)} messages came under another subject, {wrong[:3]}")


if __name__ == "__main__":
    run(__doc__.split("\n")[0], reloads)

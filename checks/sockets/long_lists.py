#!/usr/bin/env python3
"""Long lists under reloads each 20 ms: no verdict and no receiver outlives the policy that gave it.

Two versions of a policy take turns. In each a writer has 1,000 allow entries and a reader 1,000 deny entries, which only
overlap what it has subscribed to; a second reader has two. A subject's tokens say in which versions it may be published, and
in which it may be delivered: in both, in one of them, or in none.

A probe publishes between the line of a reload and the next reload, so it is known which version is in force; while others
publish it may be either. A message that is accepted was judged under a version that admits it, one that is refused under one
that doesn't. It is delivered under the same version. So where each version that is left delivers a message, each reader gets
it, once and in its publisher's order, and where none does, none gets it. What isn't decided so comes at most once.
"""

import itertools
import time

from clients import LIMIT, Client, Server, is_alive, run, storm, want
from storming import Working

COUNT = 1_000
ROUNDS = 120
EACH = 0.02
# On how many subjects a probe publishes, beside its first and last, and how often on each.
PROBED, TIMES = 25, 3
# How many messages a writer sends in a piece.
PIECE = 50
# How much more memory the server may have than before the first reload, in MiB. The policies of ROUNDS take more.
MORE = 32

# The versions that admit a subject.
KINDS = {"both": {0, 1}, "even": {0}, "odd": {1}, "none": set()}
NAMES = [*KINDS]
# What stands in an entry in place of a subject's tokens, but for its number.
FORMS = [*itertools.product(("", "*"), ("", "*"), ("", "*"), ("", "*", ">"))]
SUBSCRIBED = {b"1": "*.*.*.*.*", b"2": "shared.>", b"3": "*.*.even.*.*", b"4": "*.*.odd.>"}


def tokens_of(number):
    first = "shared" if number % 3 else f"own{number}"
    return [first, NAMES[number % 4], NAMES[number // 4 % 4], f"n{number}", "end"]


def entry_of(number, is_meant):
    """Returns an entry that matches this subject alone, or one like it that matches none of them."""
    first, publish, delivery, name, end = tokens_of(number)
    form = FORMS[number // 16 % len(FORMS)]
    tokens = [wildcard or own for own, wildcard in zip((first, publish, delivery, end), form)]
    tokens.insert(3, name if is_meant else f"not-{name}")
    return ".".join(tokens)


SUBJECTS = [".".join(tokens_of(it)).encode() for it in range(COUNT)]
PUBLISHED = [KINDS[NAMES[it % 4]] for it in range(COUNT)]
DELIVERED = [KINDS[NAMES[it // 4 % 4]] for it in range(COUNT)]
# By a version: the subjects that arrive under it alone.
TURNING = [[it for it in range(COUNT) if PUBLISHED[it] & DELIVERED[it] == {version}] for version in (0, 1)]


def policy(version):
    """Returns this version of the policy."""
    allow = [entry_of(it, version in PUBLISHED[it]) for it in range(COUNT)]
    deny = [entry_of(it, version not in DELIVERED[it]) for it in range(COUNT)]
    few = [f"*.*.{name}.*.end" for name, versions in KINDS.items() if version not in versions]
    permissions = {"demo": {}, "writer": {"publish": {"allow": allow}}, "reader": {"subscribe": {"deny": deny}},
                   "second": {"subscribe": {"deny": few}}}
    users = [{"user": it, "password": it, "permissions": rules} for it, rules in permissions.items()]
    return {"accounts": {"A": {"users": users}}}


class Writer:
    """A client that publishes and wants answers."""

    def __init__(self, server, name):
        self.client = Client(server, user="writer", connect=False)
        self.client.send(Client.connecting("writer", verbose=True))
        self.client.line(b"+OK")
        # of each message: its subject's number, and the versions under which it may have been accepted
        self.name, self.sent = name, []

    def publish(self, numbers, versions):
        """Publishes on subjects while these versions are in force, and shows that one of them answers so."""
        texts = [b"%d %d" % (self.name, len(self.sent) + at) for at in range(len(numbers))]
        frames = [b"PUB %b %d\r\n%b\r\n" % (SUBJECTS[it], len(text), text) for it, text in zip(numbers, texts)]
        self.client.send(b"".join(frames) + b"PING\r\n")
        for it in numbers:
            line, admitting = self.client.line(), PUBLISHED[it]
            denial = b"-ERR 'Permissions Violation for Publish to \"%b\"'" % SUBJECTS[it]
            want(line in (b"+OK", denial), f"a publish on {SUBJECTS[it]} was answered {line}")
            fitting = versions & admitting if line == b"+OK" else versions - admitting
            want(fitting, f"in force was version {versions}, and a publish on {SUBJECTS[it]} was answered {line}")
            self.sent.append((it, fitting if line == b"+OK" else set()))
        self.client.line(b"PONG")


def write(work, writer):
    """Publishes on all subjects in turn, while either version may be in force."""
    first = writer.name * COUNT // 2
    while not work.stop.is_set():
        first += PIECE
        writer.publish([it % COUNT for it in range(first, first + PIECE)], {0, 1})
        time.sleep(EACH / 2)


def read(client, heard):
    """Notes what each subscription gets of each writer, until `last` comes."""
    while True:
        subject, sid, _, text = client.message()
        if subject == b"last":
            break
        name, count = map(int, text.split())
        heard.setdefault((sid, name), []).append((count, subject))


def probed(number):
    """Returns on what the probe under policy `number` publishes: first on the subject on which the last probe ended, then on
    some that are probed under both versions, and last on one that arrives either before the next reload or behind it."""
    first = number // 2 * PROBED
    part = [it % COUNT for it in range(first, first + PROBED)]
    return [it for it in (last_of(number - 1), *part, last_of(number)) for _ in range(TIMES)]


def last_of(number):
    """Returns a subject that arrives under one version alone: for two policies under the next one, for two under this."""
    turning = TURNING[(number + number // 2) % 2]
    return turning[number % len(turning)]


def judge(user, heard, writers):
    """What a reader has got against what is decided. Returns how many deliveries had to come, and how many of accepted
    messages might not."""
    due = kept = 0
    for (sid, pattern), writer in itertools.product(SUBSCRIBED.items(), writers):
        about = f"subscription {sid} of {user}, writer {writer.name}"
        messages = heard.pop((sid, writer.name), [])
        counts = [count for count, _ in messages]
        want(all(one < next for one, next in itertools.pairwise(counts)), f"{about}: one came twice, or late")
        want(all(SUBJECTS[writer.sent[count][0]] == subject for count, subject in messages), f"{about}: another subject")
        got, meant = set(counts), [is_meant(pattern, it) for it in range(COUNT)]
        for count, (it, versions) in enumerate(writer.sent):
            may = meant[it] and versions & DELIVERED[it]
            must = may and versions <= DELIVERED[it]
            want(may or count not in got, f"{about}: {SUBJECTS[it]} came, {count}, accepted under {versions}")
            want(not must or count in got, f"{about}: {SUBJECTS[it]} lacks, {count}, accepted under {versions}")
            due, kept = due + bool(must), kept + bool(meant[it] and versions and not may)
    want(not heard, f"{user} got messages of nobody: {[*heard]}")
    return due, kept


def is_meant(pattern, number):
    """Returns whether a pattern that is subscribed to matches a subject."""
    return all(it in ("*", ">", token) for it, token in zip(pattern.split("."), tokens_of(number)))


def reader_of(server, user):
    """Returns a client with all that is subscribed to."""
    client = Client(server, user=user)
    for sid, pattern in (*SUBSCRIBED.items(), (b"last", "last")):
        client.subscribe(pattern.encode(), sid)
    return client


def install(server, text, number):
    """Reloads, and wants the line of this epoch."""
    server.frame(text)
    want((line := server.line()) == f"epoch {number}", f"a reload printed {line!r}")


def reload_all(server, probe, rounds, is_enough):
    """Reloads and probes at least so often, and until it is enough. Returns the last epoch, and how many KiB more the server
    had at most."""
    texts, before, most, number = [policy(0), policy(1)], server.kilobytes(), 0, 1
    end = time.monotonic() + LIMIT
    while number <= rounds or not is_enough():
        begin, number = time.monotonic(), number + 1
        want(begin < end, f"not within {LIMIT} s: the writers publish enough")
        install(server, texts[number % 2], number)
        probe.publish(probed(number), {number % 2})
        most = max(most, server.kilobytes() - before)
        time.sleep(max(0.0, EACH - (time.monotonic() - begin)))
    return number, most


def beside(program, divide, workers, writing):
    """Reloads and probes while a number of writers publish."""
    rounds, work, heard = max(ROUNDS // divide, 20), Working(), {"reader": {}, "second": {}}
    # (the history keeps little, so that what grows is what reloads leave)
    with Server(program, "--workers", workers, "--history-bytes", 1 << 20, policy=policy(1)) as server:
        readers = [reader_of(server, it) for it in heard]
        probe, *writers = everyone = [Writer(server, it) for it in range(1 + writing)]
        reading = [work.begin(read, *it) for it in zip(readers, heard.values())]
        others = [work.begin(write, work, it) for it in writers]
        number, most = reload_all(server, probe, rounds, lambda: work.faults or all(len(it.sent) > COUNT for it in writers))
        work.stop.set()
        work.end(others, "a writer")
        with Client(server) as last:
            last.send(b"PUB last 0\r\n\r\n")
            last.ping()
        work.end(reading, "a reader")
        for it in (*readers, *(it.client for it in everyone)):
            it.ping()
        want(most < MORE * 1024, f"the server has {most // 1024} MiB more than before the first reload")
        due, kept = map(min, zip(*(judge(user, messages, everyone) for user, messages in heard.items())))
        want(min(due, kept) > rounds, f"too little is decided: {due} and {kept}")
        is_alive(server)
    return (f"{number - 1} reloads, {sum(len(it.sent) for it in everyone)} messages, of which each reader had to get {due} "
            f"deliveries, and not {kept} others; at most {most // 1024} MiB more")


@storm(1, 2, 4)
def under_traffic(program, divide, workers):
    """1,000 entries, and reloads each 20 ms while two writers publish on 1,000 subjects"""
    return beside(program, divide, workers, 2)


@storm(2)
def alone(program, divide, workers):
    """The same where nobody else publishes between a probe and the next: what is known of its last subject is asked next"""
    return beside(program, divide, workers, 0)


@storm(2)
def kept(program, divide, workers):
    """400 reloads while nobody publishes, and a history that may keep 1 MiB: the policies that it keeps count"""
    with Server(program, "--workers", workers, "--history-bytes", 1 << 20, policy=policy(1)) as server:
        texts, before = [policy(0), policy(1)], server.kilobytes()
        for number in range(2, 402):
            install(server, texts[number % 2], number)
        more = server.kilobytes() - before
        want(more < MORE * 1024, f"the server has {more // 1024} MiB more than before the first reload")
        is_alive(server)
    return f"{more // 1024} MiB more"


if __name__ == "__main__":
    run(__doc__.split("\n")[0], under_traffic, alone, kept)

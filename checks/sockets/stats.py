#!/usr/bin/env python3
"""What a server counts of its clients, by account: a line each so many seconds, and the same as metrics of Prometheus in a
file. Each number is compared with what the clients have done."""

import json
import os
import pathlib
import re
import subprocess
import tempfile
import time

from clients import Client, Failed, Server, is_alive, run, wait_for, want
from hosting import lacks, skip_check_if

POLICY = {"accounts": {
    "A": {"users": [{"user": "a", "password": "a", "permissions": {"publish": {"deny": ["secret.>"]}}}],
          "exports": [{"stream": "news.>"}]},
    'B"\\b': {"users": [{"user": "b", "password": "b"}], "imports": [{"stream": {"account": "A", "subject": "news.>"}}]},
}}
NAMES = [*POLICY["accounts"]]
# How long a number may take to be told.
SOON = 20
SHARED = ("connections", "held", "waiting_bytes", "history_entries", "history_bytes", "rotations", "epoch")
OF_ACCOUNTS = ("sessions", "subscriptions", "waiting", "received", "sent", "slow_consumers")
# Each metric, with its type and what the line calls its number.
METRICS = {
    "natsd_connections": ("gauge", "connections"),
    "natsd_held_publishers": ("gauge", "held"),
    "natsd_waiting_bytes": ("gauge", "waiting_bytes"),
    "natsd_history_entries": ("gauge", "history_entries"),
    "natsd_history_bytes": ("gauge", "history_bytes"),
    "natsd_history_rotations_total": ("counter", "rotations"),
    "natsd_policy_epoch": ("gauge", "epoch"),
    "natsd_sessions": ("gauge", "sessions"),
    "natsd_subscriptions": ("gauge", "subscriptions"),
    "natsd_waiting_messages": ("gauge", "waiting"),
    "natsd_received_messages_total": ("counter", "received"),
    "natsd_sent_messages_total": ("counter", "sent"),
    "natsd_slow_consumers_total": ("counter", "slow_consumers"),
}


def lines_of(server):
    """Returns the lines of numbers that were written so far, in order."""
    text = pathlib.Path(server.errors.name).read_bytes()
    lines = [json.loads(it) for it in text[:text.rfind(b"\n") + 1].splitlines()]
    return [it for it in lines if it["event"] == "stats"]


def flat(line):
    """Returns a line's numbers, by their names: those of accounts by account and name."""
    want([*line] == ["at", "event", "level", *SHARED, "accounts"] and line["level"] == "info", f"the line has {[*line]}")
    numbers = {it: line[it] for it in SHARED}
    for account in line["accounts"]:
        want([*account] == ["account", *OF_ACCOUNTS], f"an account has {[*account]}")
        numbers |= {(account["account"], it): account[it] for it in OF_ACCOUNTS}
    return numbers


def comes(server, **wanted):
    """Waits for a line with these numbers, and returns all of its numbers."""
    account = wanted.pop("account", None)
    wanted = {(account, name) if name in OF_ACCOUNTS else name: number for name, number in wanted.items()}
    found = []

    def is_there():
        found[:] = [it for it in map(flat, lines_of(server)[-3:]) if wanted.items() <= it.items()]
        return found

    try:
        wait_for(is_there, f"a line with {wanted}", SOON)
    except Failed as failed:
        raise Failed(f"{failed}; the last are {lines_of(server)[-2:]}") from None
    return found[-1]


def numbers(program, divide):
    """Each number of two accounts, and that they are what the clients have done"""
    with Server(program, "--stats", 1, "--log", "none", policy=POLICY) as server:
        before = time.time()
        one, two, three = Client(server, user="a"), Client(server, user="a"), Client(server, user="b")
        silent = Client(server, connect=False)
        # (sid 2 ends at once, sid 3 once it has had two messages, and sid 9 is nobody's)
        one.send(b"SUB x 1\r\nSUB x 2\r\nSUB x 3\r\nUNSUB 2\r\nUNSUB 3 2\r\nUNSUB 9\r\n")
        one.ping()
        three.send(b"SUB news.* 1\r\nSUB x 2\r\n")
        three.ping()
        two.send(b"PUB x 1\r\nm\r\n" * 5 + b"PUB nobody 1\r\nm\r\n" + b"PUB secret.a 1\r\nm\r\n" + b"PUB news.a 1\r\nm\r\n" * 4)
        two.line(b"-ERR 'Permissions Violation")
        two.ping()
        three.send(b"PUB x 1\r\nm\r\n" * 3)
        for client, count in ((one, 7), (three, 7)):
            for _ in range(count):
                client.message()
        # (three CONNECTs, seven SUBs and UNSUBs, ten messages that were accepted, one that wasn't, three more, and Takes)
        a = comes(server, connections=4, held=0, waiting_bytes=0, rotations=0, epoch=1, account="A",
                  sessions=2, subscriptions=1, waiting=0, received=10, sent=7, slow_consumers=0)
        b = comes(server, connections=4, account=NAMES[1], sessions=1, subscriptions=2, waiting=0, received=3, sent=7, slow_consumers=0)
        want(a["history_entries"] > 3 + 8 + 14, f"{a['history_entries']} entries")
        want(len(b) == len(SHARED) + 2 * len(OF_ACCOUNTS), "there are other accounts")
        at = [it["at"] / 1000 for it in lines_of(server)]
        want(before - 1 < at[0] and at[-1] < time.time() + 1, f"the moments are {at}")
        # (what has gone isn't counted, and what was counted since the start stays)
        two.close()
        silent.close()
        comes(server, connections=2, account="A", sessions=1, subscriptions=1, received=10, sent=7)
        again = Client(server, user="a")
        again.send(b"PUB x 1\r\nm\r\n")
        one.message()
        comes(server, connections=3, account="A", sessions=2, subscriptions=1, received=11, sent=8)
    return "two accounts"


def times(program, divide):
    """A line comes each so many seconds, whether or not something happens"""
    with Server(program, "--stats", 2, policy=POLICY) as server:
        wait_for(lambda: len(lines_of(server)) >= 4, "four lines", SOON)
        at = [it["at"] for it in lines_of(server)][-3:]
        gaps = [after - before for before, after in zip(at, at[1:])]
        want(all(1000 < it < 4000 for it in gaps), f"there are {gaps} ms between lines")
        want(lines_of(server)[-1]["accounts"] == [], "there is an account without a client")
        want(server.seconds() < 2, f"it has used {server.seconds()} s of a processor")
    return f"{gaps} ms"


def crowd(program, divide):
    """The counts of all workers are added up, in runs of messages and one by one"""
    each = 200
    with Server(program, "--stats", 1, "--workers", 3, policy=POLICY) as server:
        crowd = [(user, Client(server, user=user)) for _ in range(10) for user in "ab"]
        for place, (user, client) in enumerate(crowd):
            client.subscribe(b"all")
        for user, client in crowd:
            client.send(b"PUB all 2\r\nhi\r\n" * each)
        for user, client in crowd:
            for _ in range(10 * each):
                client.message()
        for user, client in crowd:
            client.send(b"PUB nobody 0\r\n\r\n")
            client.ping()
        counts = {"sessions": 10, "subscriptions": 10, "waiting": 0, "received": 10 * each + 10, "sent": 100 * each}
        for name in NAMES:
            comes(server, connections=20, account=name, **counts)
    return f"{len(crowd)} clients"


def slow(program, divide):
    """Publishers that are held, what waits, and clients that are closed for being slow"""
    size = 1000
    with Server(program, "--stats", 1, "--outbox", 64, policy=POLICY) as server:
        publisher, sleeper = Client(server, user="a"), Client(server, user="b", receive=4096)
        sleeper.subscribe(b"news.*")
        publisher.socket.setblocking(False)
        message, sent = b"PUB news.a %d\r\n%b\r\n" % (size, b"x" * size), 0
        found = []

        def is_held():
            nonlocal sent
            try:
                sent += publisher.socket.send(message * 64)
            except BlockingIOError:
                pass
            found[:] = [it for it in map(flat, lines_of(server)) if it["held"] == 1 and it.get((NAMES[1], "waiting")) == 64]
            return found

        wait_for(is_held, "a line with a held publisher and a full outbox", SOON)
        first = found[0]
        want(64 * size <= first["waiting_bytes"] <= 64 * size + 2_000_000, f"{first['waiting_bytes']} bytes wait")
        publisher.socket.settimeout(SOON)
        comes(server, held=0, waiting_bytes=0, connections=1, account=NAMES[1], sessions=0, subscriptions=0, waiting=0, slow_consumers=1)
    return "one held, one closed"


def histories(program, divide):
    """Rotations, and what a policy that comes into force leaves"""
    with Server(program, "--stats", 1, "--history", 100, policy=POLICY) as server:
        one, two = Client(server, user="a"), Client(server, user="b")
        one.subscribe(b"mine")
        for _ in range(30):
            one.send(b"PUB nobody 0\r\n\r\n" * 10)
            one.ping()
        # (a rotation at each multiple of 50 entries)
        found = comes(server, epoch=1, rotations=6)
        want(found["history_entries"] < 50, f"{found['history_entries']} entries")
        server.frame({"accounts": {"A": POLICY["accounts"]["A"]}})
        two.rest()
        comes(server, epoch=2, account="A", sessions=1, subscriptions=1)
        comes(server, epoch=2, account=NAMES[1], sessions=0, subscriptions=0)
    with Server(program, "--stats", 1, policy=POLICY) as server:
        one = Client(server, user="a")
        each = 1_000_000
        one.send(b"PUB nobody %d\r\n%b\r\n" % (each, b"x" * each) * 10)
        one.ping()
        kept = comes(server, account="A", received=10)["history_bytes"]
        want(10 * each - 200_000 < kept < 25 * each, f"{kept} bytes are kept")
    return "six rotations"


def told_by(server):
    """Returns what the server has told on standard error, of whole lines."""
    text = pathlib.Path(server.errors.name).read_text()
    return [json.loads(it) for it in text[: text.rfind("\n") + 1].splitlines()]


def off(program, divide):
    """Without the options only the start is told"""
    with Server(program, policy=POLICY) as server:
        one = Client(server, user="a")
        one.subscribe(b"x")
        one.send(b"PUB x 2\r\nhi\r\n")
        one.message()
        time.sleep(2.5)
        events = [it["event"] for it in told_by(server)]
        want(events == ["started"], f"{events}")
    return "one line"


def sample_of(line):
    """Returns a sample's metric, its account if it has one, and its number."""
    found = re.fullmatch(r'(\w+)(?:\{account="((?:[^"\\\n]|\\["\\n])*)"\})? (\d+)', line)
    want(found, f"no sample: {line}")
    account = re.sub(r"\\(.)", lambda it: {"n": "\n"}.get(it[1], it[1]), found[2]) if found[2] is not None else None
    return found[1], account, int(found[3])


def read_metrics(text):
    """Returns the numbers of a file of metrics, by the names of the line."""
    want(text.endswith("\n"), "the file isn't whole")
    found, types, helped, current = {}, {}, set(), None
    for line in text.splitlines():
        if line.startswith("# HELP "):
            current = line.split(" ")[2]
            want(current not in helped and len(line.split(" ")) > 4, f"{line}")
            helped.add(current)
        elif line.startswith("# TYPE "):
            _, _, name, types[current] = line.split(" ")
            want(name == current, f"{line} behind the help of {current}")
        else:
            name, account, number = sample_of(line)
            want(name == current, f"{line} among those of {current}")
            key = METRICS[name][1] if account is None else (account, METRICS[name][1])
            want(key not in found, f"{line} comes twice")
            found[key] = number
    want(types == {name: kind for name, (kind, _) in METRICS.items()}, f"the types are {types}")
    return found


def metrics(program, divide):
    """The file of metrics has the numbers of the line, and is whole at any time"""
    with tempfile.TemporaryDirectory() as room:
        path = pathlib.Path(room) / "natsd.prom"
        with Server(program, "--stats", 1, "--stats-file", path, policy=POLICY) as server:
            one, two = Client(server, user="a"), Client(server, user="b")
            one.subscribe(b"x")
            one.send(b"PUB x 2\r\nhi\r\n" * 3)
            two.ping()
            comes(server, account="A", received=3, sent=3, subscriptions=1)
            line = comes(server, account=NAMES[1], sessions=1)
            wait_for(lambda: read_metrics(path.read_text()) == line, f"the numbers {line} in the file", SOON)
            want(path.stat().st_mode & 0o444 == 0o444 & ~mask(), "others can't read it")
            for _ in range(3000):
                read_metrics(path.read_text())
            want(os.listdir(room) in (["natsd.prom"], ["natsd.prom.new", "natsd.prom"], ["natsd.prom", "natsd.prom.new"]), f"{os.listdir(room)}")


def judged_by_prometheus(program, divide):
    """Prometheus's own tool has nothing to say of the file of metrics"""
    skip_check_if(lacks("promtool", "prometheus"))
    with tempfile.TemporaryDirectory() as room:
        path = pathlib.Path(room) / "natsd.prom"
        with Server(program, "--stats", 1, "--stats-file", path, policy=POLICY) as server, Client(server, user="b"):
            line = comes(server, account=NAMES[1], sessions=1)
            wait_for(lambda: path.exists() and read_metrics(path.read_text()) == line, f"the numbers {line} in the file", SOON)
            it = subprocess.run(["promtool", "check", "metrics"], input=path.read_text(), capture_output=True, text=True)
        want((it.returncode, it.stdout, it.stderr) == (0, "", ""), f"promtool: {it.returncode} {it.stdout}{it.stderr}")


def mask():
    """Returns this process's mask of file modes."""
    old = os.umask(0)
    os.umask(old)
    return old


def file_alone(program, divide):
    """Without SECONDS the file is written, and no line; one that can't be written is told of once, and clients are served"""
    with tempfile.TemporaryDirectory() as room:
        path = pathlib.Path(room) / "there" / "natsd.prom"
        with Server(program, "--stats-file", path, policy=POLICY) as server:
            wait_for(lambda: len(told_by(server)) > 1, "a line", 40)
            line = told_by(server)[1]
            want(line["event"] == "failed" and line["text"].startswith(f"{path}: "), f"{line}")
            one = Client(server, user="a")
            one.ping()
            path.parent.mkdir()
            wait_for(path.exists, "the file", 40)
            want(read_metrics(path.read_text())["A", "sessions"] == 1, "another number of sessions")
            want(len(told_by(server)) == 2, "there are other lines")
    return "one line"


if __name__ == "__main__":
    run(__doc__, numbers, times, crowd, slow, histories, off, metrics, judged_by_prometheus, file_alone)

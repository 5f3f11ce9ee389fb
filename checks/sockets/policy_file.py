#!/usr/bin/env python3
"""The watched file of a policy: when it is read, what is refused, and what standard error tells of it and of a start that
fails."""

import json
import os
import pathlib
import subprocess
import tempfile
import time

from clients import Client, Server, is_alive, run, wait_for, want
from telling import POLICY, line_of, told

# Keys that stand twice, and a text that is no pattern.
TWICE = '{"accounts": {"A": {"users": [{"user": "demo", "password": "demo"}]},\n "A": {"users": []}}}'
FAULT = '{"accounts":\n  {"A": {"users": [{"user": "demo", "password": "demo", "permissions": {"publish": ["a..b"]}}]}}}'
TWICE_TOLD = 'the key "A" stands twice in one object, at line 1 column 15 and at line 2 column 2: the last counts'
FAULT_TOLD = '"a..b" at line 2 column 85'


def events(server):
    return [it["event"] for it in told(server)]


def refused(program, divide):
    """A pipe, a folder and no file at all: each is told once, no reload waits for them, and the next file is taken"""
    with Server(program, policy=POLICY, file=True) as server:
        os.remove(server.path)
        line_of(server, "policy_unreadable")
        os.mkfifo(server.path)
        wait_for(lambda: events(server).count("policy_unreadable") == 2, "the pipe is told", 10)
        want("not a regular file" in told(server)[-1]["text"], f"another reason: {told(server)}")
        time.sleep(1)
        os.remove(server.path)
        wait_for(lambda: events(server).count("policy_unreadable") == 3, "it is told that it is gone again", 10)
        server.path.mkdir()
        wait_for(lambda: events(server).count("policy_unreadable") == 4, "the folder is told", 10)
        server.path.rmdir()
        server.write({"accounts": {"A": {"users": POLICY["accounts"]["A"]["users"][:1]}}})
        line_of(server, "reloaded", epoch=2)
        want(events(server).count("policy_readable_again") == 1, f"{told(server)}")
        is_alive(server)
    return "three kinds"


def half_written(program, divide):
    """A file that is written in pieces is taken whole, and its fronts never"""
    text = json.dumps(POLICY) + " " * 2_000
    with Server(program, policy=POLICY, file=True) as server:
        for epoch in range(2, 5):
            with open(server.path, "w") as out:
                for at in range(0, len(text), 40):
                    out.write(text[at:at + 40])
                    out.flush()
                    time.sleep(0.005)
                out.write("\n" * epoch)
            line_of(server, "reloaded", epoch=epoch)
        want("policy_refused" not in events(server), f"a front was taken: {told(server)}")
    return "three files"


def untouched(program, divide):
    """A file that doesn't change isn't read"""
    size = 800_000
    with Server(program, policy=json.dumps(POLICY) + " " * size, file=True) as server:
        io = pathlib.Path(f"/proc/{server.process.pid}/io")
        time.sleep(1)
        before = int(io.read_text().split()[1])
        time.sleep(2)
        count = int(io.read_text().split()[1]) - before
        want(count < size, f"{count} bytes were read in two seconds")
        os.utime(server.path)
        time.sleep(1)
        want(events(server) == [], f"{told(server)}")
    return f"{count} bytes in 2 s"


def places(program, divide):
    """Where a fault is, and keys that an object has twice"""
    for level in ("denials", "none"):
        with Server(program, "--log", level, policy=POLICY, file=True) as server:
            server.write(FAULT)
            want(server.line() == "config BadSubject /accounts/A/users/0/permissions/publish/0", "another fault")
            server.write(TWICE)
            want(server.line() == "epoch 2", "it isn't taken")
            if level == "none":
                wait_for(lambda: server.said().count("\\n") == 2, "two lines", 10)
                server.errors.seek(0)
                want(server.errors.read().decode() == f"{FAULT_TOLD}\n{TWICE_TOLD}\n", server.said())
            else:
                want(line_of(server, "policy_refused")["place"] == FAULT_TOLD, f"{told(server)}")
                want(line_of(server, "policy_warning")["text"] == TWICE_TOLD, f"{told(server)}")
    return "a fault and a warning"


def ended(program, path, *words):
    """Runs a server that doesn't start, and returns its status, what it prints, and what it tells."""
    line = [program, "serve", "--policy", str(path), *words]
    it = subprocess.run(line, stdin=subprocess.DEVNULL, capture_output=True, timeout=20)
    return it.returncode, it.stdout.decode(), [json.loads(line) for line in it.stderr.splitlines()]


def starts(program, divide):
    """A start that fails tells the system's reason, and a first policy's fault its place"""
    with tempfile.TemporaryDirectory() as room:
        path = pathlib.Path(room) / "policy.json"
        path.write_text(json.dumps(POLICY))
        with Server(program, policy=POLICY) as server:
            address = ":".join(map(str, server.address))
            for listen, reason in [(address, "Address already in use"), *((it, f"{it}: no numeric address with a port, such as 0.0.0.0:4222") for it in (":4222", "localhost:4222", "4222"))]:
                status, printed, lines = ended(program, path, "--listen", listen)
                want((status, printed) == (1, "listen failed\n"), f"{listen}: {status}, {printed}")
                want(lines[-1]["event"] == "failed" and reason.lower() in lines[-1]["text"].lower(), f"{listen}: {lines}")
        status, printed, lines = ended(program, pathlib.Path(room))
        want((status, printed) == (1, "read failed\n") and "not a regular file" in lines[0]["text"], f"{status}, {printed}, {lines}")
        path.write_text(FAULT)
        status, printed, lines = ended(program, path, "--listen", "127.0.0.1:0")
        want(printed == "config BadSubject /accounts/A/users/0/permissions/publish/0\n", printed)
        want((status, lines[0]["event"], lines[0]["place"]) == (1, "policy_refused", FAULT_TOLD), f"{status}, {lines}")
    return "three reasons and a place"


if __name__ == "__main__":
    run(__doc__, refused, half_written, untouched, places, starts)

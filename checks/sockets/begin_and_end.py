#!/usr/bin/env python3
"""How the server begins, takes policies and ends: the lines that it prints, and its status."""

import json
import socket
import subprocess
import time

from clients import LIMIT, POLICY, TEXTS, USER, Client, Server, is_alive, run, shown, want

DENIED = {"accounts": {"A": {"users": [{**USER, "permissions": {"publish": {"deny": ["a"]}}}]}}}
REFUSED = b"-ERR 'Permissions Violation for Publish to \"a\"'"


def ran(program, words, given, status, printed):
    """Runs the program to its end."""
    it = subprocess.run([program, *words], input=given, capture_output=True, timeout=LIMIT)
    want(it.returncode == status, f"{words} with {shown(given)}: status {it.returncode}, and not {status}; "
         f"{shown(it.stdout)}, {shown(it.stderr)}")
    if printed is not None:
        want(it.stdout == printed, f"{words} with {shown(given)}: printed {shown(it.stdout)}, and not {shown(printed)}")
    return it


def frame(text):
    return b"%d\n%b" % (len(text), text)


def wrong_first_frames(program, divide):
    """A first frame that is wrong: bad frame, status 1"""
    free = ["serve", "--listen", "127.0.0.1:0"]
    for given in (b"x", b"x\n", b"\n", b"-1\n", b" 2\n{}", b"2 \n{}", b"12345678\n", b"5\n{}", b"2", b"2\r\n{}"):
        ran(program, free, given, 1, b"bad frame\n")


def wrong_first_policies(program, divide):
    """A first policy that is refused: its fault line, status 1"""
    free = ["serve", "--listen", "127.0.0.1:0"]
    ran(program, free, frame(b""), 1, b"config NotJson\n")
    ran(program, free, frame(b"{}"), 1, b"config WrongType /accounts\n")
    ran(program, free, frame(b'{"accounts":{"a b":{}}}'), 1, b"config BadName /accounts/a b\n")


def wrong_words(program, divide):
    """Wrong words: status 2, and a text that tells what is right"""
    for words in (["--workers", "0"], ["--workers", "65"], ["--workers", "x"], ["--workers"], ["--outbox", "0"],
                  ["--outbox", "65537"], ["--history", "1"], ["--no-such-word"], ["more"]):
        it = ran(program, ["serve", *words], b"", 2, b"")
        want(it.stderr.strip(), f"{words}: nothing on standard error")
    help = ran(program, ["serve", "--help"], b"", 0, None)
    text = (help.stdout + help.stderr).decode()
    for word in "--listen 127.0.0.1:4222 --workers 2 --outbox 1024 --history 1000000 --policy".split():
        want(word in text, f"--help doesn't say {word}")


def later_frames(program, divide):
    """Later policies: a reload's lines; a refused one its fault line, the one before stays; a wrong frame ends it"""
    with Server(program) as server, Client(server) as client:
        server.frame(DENIED)
        want(server.line() == "epoch 2", f"printed {server.lines}")
        client.send(b"PUB a 0\r\n\r\n")
        want(client.line() == REFUSED, "the policy isn't in force")
        server.frame("{}")
        want(server.line() == "config WrongType /accounts", f"printed {server.lines}")
        two = {"accounts": {"A": {"users": [USER]}, "B": {"users": [USER]}}}
        server.frame(two)
        want(server.line() == "policy DuplicateUser B 0", f"printed {server.lines}")
        client.send(b"PUB a 0\r\n\r\n")
        want(client.line() == REFUSED, "the policy before isn't in force any more")
        client.subscribe(b"b.*", b"one")
        nobody = {"accounts": {"A": {"users": [{"user": "other", "password": "other"}]}}}
        server.frame({"accounts": {"A": {"users": [{**USER, "permissions": {"subscribe": {"allow": ["c"]}}}]}}})
        want(server.line() == "epoch 3", f"printed {server.lines}")
        want(server.line() == f"removed {client.number} one no allow", f"printed {server.lines}")
        server.frame(nobody)
        want(server.line() == "epoch 4", f"printed {server.lines}")
        want(server.line() == f"gone {client.number}", f"printed {server.lines}")
        got = client.rest()
        want(got == TEXTS["authorization"], f"the one that is gone got {shown(got)}")
        server.process.stdin.write(b"x")
        server.end_input()
        want(server.line() == "bad frame", f"printed {server.lines}")
        want(server.status() == 1, f"status {server.status()}")


def end_of_input(program, divide):
    """The end of input: stopped, status 0, and what was accepted was written out first"""
    for receivers in (1, 8):
        with Server(program) as server:
            clients = [Client(server) for _ in range(receivers)]
            for it in clients:
                it.subscribe(b"last")
            with Client(server) as publisher:
                # (fewer than an outbox holds)
                count = 500
                publisher.send(b"".join(b"PUB last 4\r\n%04d\r\n" % it for it in range(count)) + b"PING\r\n")
                publisher.line(b"PONG")
                server.end_input()
                wanted = b"".join(b"MSG last 1 4\r\n%04d\r\n" % it for it in range(count))
                for it in clients:
                    got = it.rest()
                    want(got == wanted, f"of {len(wanted)} bytes that were accepted {len(got)} came, then the end")
            want(server.line() == "stopped", f"printed {server.lines}")
            want(server.status() == 0, f"status {server.status()}")


def end_beside_a_sleeper(program, divide):
    """The end of input while a receiver doesn't read: it ends all the same"""
    with Server(program) as server:
        sleeper, publisher = Client(server, receive=4096), Client(server)
        sleeper.subscribe(b"last")
        publisher.send(b"".join(b"PUB last 65536\r\n" + bytes(65536) + b"\r\n" for _ in range(100)) + b"PING\r\n")
        publisher.line(b"PONG")
        server.end_input()
        want(publisher.rest() == b"", "something comes at the end")
        want(server.line() == "stopped", f"printed {server.lines}")
        want(server.status() == 0, f"status {server.status()}")


def no_input(program, divide):
    """An empty input: stopped, status 0"""
    ran(program, ["serve", "--listen", "127.0.0.1:0"], b"", 0, b"stopped\n")


def taken_ports(program, divide):
    """A port that is taken, or an address that is none: listen failed, status 1"""
    first = frame(json.dumps(POLICY).encode())
    with socket.create_server(("127.0.0.1", 0)) as other:
        ran(program, ["serve", "--listen", f"127.0.0.1:{other.getsockname()[1]}"], first, 1, b"listen failed\n")
    for address in ("127.0.0.1", "no address", "127.0.0.1:65536", ""):
        ran(program, ["serve", "--listen", address], first, 1, b"listen failed\n")


def has_ipv6():
    try:
        with socket.create_server(("::1", 0), family=socket.AF_INET6):
            return True
    except OSError:
        return False


def is_taken(host, port):
    """Whether a client that connects there is sent something."""
    try:
        with socket.create_connection((host, port), LIMIT) as it:
            return bool(it.recv(1))
    except ConnectionRefusedError:
        return False


def every_address(program, divide):
    """0.0.0.0 takes clients over IPv4 alone, [::] over IPv6 and IPv4"""
    if not has_ipv6():
        return "not tried, since this host has no IPv6"
    for listen, wanted in (("0.0.0.0:0", ["127.0.0.1"]), ("[::]:0", ["127.0.0.1", "::1"])):
        with Server(program, listen=listen) as server:
            taken = [it for it in ("127.0.0.1", "::1") if is_taken(it, server.address[1])]
            want(taken == wanted, f"at {listen} it takes clients who connect to {taken}")


def policy_files(program, divide):
    """A policy file: an edit is in force soon, a text that is refused prints its fault line, the one before stays"""
    with Server(program, file=True) as server, Client(server) as client:
        server.write(DENIED)
        want(server.line() == "epoch 2", f"printed {server.lines}")
        client.send(b"PUB a 0\r\n\r\n")
        want(client.line() == REFUSED, "the policy isn't in force")
        server.write("{")
        want(server.line() == "config NotJson", f"printed {server.lines}")
        client.send(b"PUB a 0\r\n\r\n")
        want(client.line() == REFUSED, "the policy before isn't in force any more")
        server.path.unlink()
        time.sleep(1)
        client.ping()
        server.write(POLICY)
        want(server.line() == "epoch 3", f"printed {server.lines}")
        client.subscribe(b"a")
        client.send(b"PUB a 0\r\n\r\n")
        client.message()
        is_alive(server)


def missing_policy_file(program, divide):
    """A policy file that isn't there: status 1, and something is printed"""
    it = ran(program, ["serve", "--listen", "127.0.0.1:0", "--policy", "/no/such/file"], b"", 1, None)
    want(it.stdout.strip() or it.stderr.strip(), "nothing was printed")
    return f"printed {(it.stdout + it.stderr).decode().strip()!r}"


if __name__ == "__main__":
    run(__doc__, wrong_first_frames, wrong_first_policies, wrong_words, later_frames, end_of_input,
        end_beside_a_sleeper, no_input, taken_ports, every_address, policy_files, missing_policy_file)

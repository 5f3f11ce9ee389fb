#!/usr/bin/env python3
"""How much memory the server keeps: of peers without CONNECT, of a history of large, wide or scattered messages, of header
blocks, of subscriptions that come and go, and of large messages for a subscriber that doesn't read."""

import time

from clients import LIMIT, TEXTS, Client, Server, is_alive, raise_descriptors, run, shown, storm, want
from storming import Hearing, Sending, deaf, numbered, spread

# What the history and everything else may take at the defaults, in MiB.
MOST = 600


@storm(2)
def unknown_peers(program, divide, workers):
    """300 peers that send half of a PUB of 1 MiB and no CONNECT: they are refused, and cost less than 20 MiB"""
    peers, half = 300, 1 << 19
    raise_descriptors(2 * peers)
    with Server(program, "--workers", workers) as server:
        is_alive(server)
        before, most = server.kilobytes(), 0
        clients = [Client(server, connect=False) for _ in range(peers)]
        writing = [Sending(it, b"PUB x 1048576\r\n" + bytes(half)) for it in clients]
        end = time.monotonic() + 3
        while time.monotonic() < end:
            most = max(most, server.kilobytes())
            time.sleep(0.02)
        want(most < before + 20 * 1024, f"the server has {(most - before) // 1024} MiB more, at most")
        for it in clients:
            got = it.rest()
            want(got == TEXTS["authorization"], f"a peer got {shown(got)}")
        for it in writing:
            it.join("a peer isn't refused")
        is_alive(server)
    return f"{(most - before) // 1024} MiB more, at most"


def watched(server, is_over, why, bound=MOST):
    """Returns the most memory that the server has, in MiB, until something is over."""
    most, end = 0, time.monotonic() + LIMIT
    while not is_over():
        most = max(most, server.kilobytes())
        want(most < bound * 1024, f"the server has {most // 1024} MiB")
        want(time.monotonic() < end, f"not within {LIMIT} s: {why}")
        time.sleep(0.02)
    return most // 1024


@storm(2)
def large_messages(program, divide, workers):
    """16,800 messages of 64 KiB to one subscriber"""
    size, count = 1 << 16, 16_800
    with Server(program, "--workers", workers) as server:
        publisher, reader = spread(server, 2, workers)
        reader.subscribe(b"large")
        hearing = Hearing([reader])
        Sending(publisher, *(numbered(b"large", [it], size) for it in range(8)), times=count // 8)
        each = len(b"MSG large 1 65536\r\n\r\n") + size
        most = watched(server, lambda: hearing.ended or hearing.bytes >= count * each, "not all came")
        want(not hearing.ended, "the subscriber was closed")
        hearing.end()
    return f"at most {most} MiB"


@storm(2)
def header_blocks(program, divide, workers):
    """16,800 messages with a header block of 64 KiB to one subscriber"""
    size, count = 1 << 16, 16_800
    block = b"NATS/1.0\r\nX: %b\r\n\r\n" % (b"x" * (size - 17))
    message = b"HPUB headed %d %d\r\n%b\r\n" % (size, size, block)
    with Server(program, "--workers", workers) as server:
        publisher, reader = spread(server, 2, workers, headers=True)
        reader.subscribe(b"headed")
        hearing = Hearing([reader])
        Sending(publisher, message, times=count)
        each = len(b"HMSG headed 1 65536 65536\r\n\r\n") + size
        most = watched(server, lambda: hearing.ended or hearing.bytes >= count * each, "not all came")
        want(not hearing.ended, "the subscriber was closed")
        hearing.end()
    return f"at most {most} MiB"


def come_and_go(program, workers, *words, bound=MOST, **more):
    """1,000,000 SUBs and as many UNSUBs by 4 clients of a server with these words. Returns the most memory that it has, in MiB."""
    each, count = 500, 1_000_000
    with Server(program, "--workers", workers, *words, **more) as server:
        clients = spread(server, 4, workers)
        piece = b"".join(b"SUB some.%d.> %d\r\nUNSUB %d\r\n" % (it, it, it) for it in range(each))
        writing = [Sending(it, piece, times=count // each // 4) for it in clients]
        most = watched(server, lambda: all(it.is_over() for it in writing), "not all is read", bound)
        for it in clients:
            it.ping()
    return f"at most {most} MiB"


@storm(2)
def subscriptions_come_and_go(program, divide, workers):
    """1,000,000 SUBs and as many UNSUBs by 4 clients"""
    return come_and_go(program, workers)


@storm(2)
def marked_ones_come_and_go(program, divide, workers):
    """The same where a deny entry overlaps each, and the history keeps little: less than 24 MiB"""
    user = {"user": "demo", "password": "demo", "permissions": {"subscribe": {"deny": "some.*.secret"}}}
    policy = {"accounts": {"A": {"users": [user]}}}
    return come_and_go(program, workers, "--history-bytes", 1 << 20, bound=24, policy=policy)


@storm(2)
def scattered(program, divide, workers):
    """One PUB in every 4 KiB of other frames, 150,000 of them by 4 clients"""
    each, count = 4_096, 150_000
    piece = b"PUB here 2\r\nhi\r\n"
    # (frames that want no answer, 8 KiB of them in all at once)
    piece += b"PONG " + b"x" * ((each - len(piece)) // 2 - 7) + b"\r\n"
    piece += b"PONG " + b"x" * (each - len(piece) - 7) + b"\r\n"
    with Server(program, "--workers", workers) as server:
        clients = spread(server, 4, workers)
        writing = [Sending(it, 16 * piece, times=count // 64) for it in clients]
        most = watched(server, lambda: all(it.is_over() for it in writing), "not all is read")
        for it in clients:
            it.ping()
    return f"at most {most} MiB"


@storm(2)
def wide_messages(program, divide, workers):
    """30,000 messages to 400 receivers"""
    count, receivers = 30_000, 400
    raise_descriptors(2 * receivers)
    with Server(program, "--workers", workers) as server:
        publisher, readers = Client(server), spread(server, receivers, workers)
        for it in readers:
            it.subscribe(b"wide")
        hearing = Hearing(readers)
        Sending(publisher, b"PUB wide 2\r\nhi\r\n" * 1_000, times=count // 1_000)
        each = len(b"MSG wide 1 2\r\nhi\r\n")
        most = watched(server, lambda: hearing.ended or hearing.bytes >= count * receivers * each, "not all came")
        want(not hearing.ended, f"{len(hearing.ended)} receivers were closed")
        hearing.end()
    return f"at most {most} MiB"


@storm(2)
def deaf_to_large(program, divide, workers):
    """1,200 messages of 1 MiB to a subscriber that reads and one that doesn't, which is closed: less than 200 MiB"""
    size, count = 1 << 20, 1_200
    with Server(program, "--workers", workers, "--history-bytes", 1 << 24) as server:
        publisher, reader = spread(server, 2, workers)
        reader.subscribe(b"large")
        sleeper = deaf(server, b"large", workers - 1, workers)
        hearing = Hearing([reader])
        Sending(publisher, numbered(b"large", [7], size), times=count)
        each = len(b"MSG large 1 1048576\r\n\r\n") + size
        most = watched(server, lambda: hearing.ended or hearing.bytes >= count * each, "not all came", 200)
        want(not hearing.ended, "the subscriber that reads was closed")
        hearing.end()
        got = len(sleeper.rest())
        want(got < count * each, "all has come to the one that doesn't read")
        is_alive(server)
    return f"at most {most} MiB"


@storm(2)
def pause_of_large(program, divide, workers):
    """200 messages of 1 MiB to a subscriber that reads nothing for a second: it gets all, and less than 200 MiB"""
    size, count = 1 << 20, 200
    with Server(program, "--workers", workers, "--history-bytes", 1 << 24) as server:
        publisher, reader = Client(server), deaf(server, b"large", workers - 1, workers)
        writing = Sending(publisher, *(numbered(b"large", [it], size) for it in range(count)))
        end = time.monotonic() + 1
        most = watched(server, lambda: time.monotonic() > end, "a second", 200)
        want(not writing.is_over(), "the publisher isn't held")
        for it in range(count):
            _, _, _, payload = reader.message()
            want(int(payload[-9:]) == it, f"message {shown(payload[-9:])} in place of {it}")
        writing.join()
        is_alive(server)
    return f"at most {most} MiB"


if __name__ == "__main__":
    run(__doc__, unknown_peers, large_messages, header_blocks, subscriptions_come_and_go, marked_ones_come_and_go, scattered,
        wide_messages, deaf_to_large, pause_of_large)

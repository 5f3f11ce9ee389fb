#!/usr/bin/env python3
"""What a client was to be sent when it sent a PING is sent before the PONG.

A client that drains sends UNSUB and PING, and drops what comes for that subscription after the PONG. So it would lose
what comes late.
"""

import threading

from clients import Client, Server, client_on, run, want

COUNT = 500
ROUNDS = 200


def pong_is_last(client, count, text):
    """Reads up to the PONG, and wants this number of messages before it."""
    for number in range(count):
        line = client.line()
        want(line != b"PONG", f"the PONG came before {count - number} of {count} messages, accepted before its PING")
        want(line.startswith(b"MSG last 1 "), f"came {line!r}")
        want(client.take(6) == text % number + b"\r\n", "another message came")
    client.line(b"PONG")


def drain(program, divide, place):
    rounds = max(ROUNDS // divide, 10)
    with Server(program, "--workers", 2) as server:
        publisher, receiver = client_on(server, 0, 2), client_on(server, place, 2)
        for _ in range(rounds):
            receiver.subscribe(b"last")
            publisher.send(b"".join(b"PUB last 4\r\n%04d\r\n" % it for it in range(COUNT)) + b"PING\r\n")
            publisher.line(b"PONG")
            receiver.send(b"UNSUB 1\r\nPING\r\n")
            pong_is_last(receiver, COUNT, b"%04d")
    return f"{rounds} times {COUNT} messages"


def same_worker(program, divide):
    """What another on the same worker has published, and was answered"""
    return drain(program, divide, 0)


def other_worker(program, divide):
    """What another on another worker has published, and was answered"""
    return drain(program, divide, 1)


def one_piece(program, divide):
    """What the client itself publishes in the piece that has the PING"""
    with Server(program) as server, Client(server) as client:
        for count in (1, 10, COUNT):
            client.subscribe(b"last")
            client.send(b"".join(b"PUB last 4\r\n%04d\r\n" % it for it in range(count)) + b"UNSUB 1\r\nPING\r\n")
            pong_is_last(client, count, b"%04d")


def publish_on(client, stop):
    piece = b"PUB last 4\r\nabcd\r\n" * 100
    while not stop.is_set():
        client.send(piece)


def end_in_flood(client, sid):
    """Subscribes until a message has come, and returns how many came before the PONG."""
    client.send(b"SUB last %b\r\n" % sid)
    count = 0
    while (line := client.line()) != b"PONG":
        want(line.startswith(b"MSG last %b " % sid), f"{line!r} came after the PONG to its UNSUB")
        client.take(6)
        count += 1
        if count == 1:
            client.send(b"UNSUB %b\r\nPING\r\n" % sid)
    return count


def flooded(program, divide):
    """What another on another worker has published, and wasn't answered, before the UNSUB"""
    rounds = max(5 * ROUNDS // divide, 10)
    with Server(program, "--workers", 2) as server:
        publisher, receiver = client_on(server, 0, 2), client_on(server, 1, 2)
        stop = threading.Event()
        flood = threading.Thread(target=publish_on, args=(publisher, stop))
        flood.start()
        try:
            count = sum(end_in_flood(receiver, b"%d" % it) for it in range(rounds))
            receiver.ping()
        finally:
            stop.set()
            flood.join()
    return f"{rounds} times, {count} messages"


if __name__ == "__main__":
    run(__doc__.split("\n")[0], same_worker, other_worker, one_piece, flooded)

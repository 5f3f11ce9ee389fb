#!/usr/bin/env python3
"""A receiver that doesn't read is closed as a Slow Consumer, and others go on meanwhile."""

import threading

from clients import TEXTS, Client, Flood, Server, client_on, run, shown, want

# More than a socket's two ends and an outbox hold.
MESSAGES = 400_000
SIZE = 128


def stuck(program, divide, place):
    """Floods two subscribers on worker `place`, of which one doesn't read, while others talk on both workers."""
    messages = max(MESSAGES // divide, 40_000)
    with Server(program, "--workers", 2) as server:
        publisher, reader = client_on(server, 0, 2), client_on(server, place, 2)
        sleeper = client_on(server, place, 2, receive=4096)
        for it in (reader, sleeper):
            it.subscribe(b"flood")
        talks = threading.Thread(target=talk, args=(server, stop := threading.Event(), answers := []))
        talks.start()
        flood = Flood(messages, size=SIZE)
        try:
            flood.run(publisher, [reader])
        finally:
            stop.set()
            talks.join()
        want(not isinstance(answers[-1], Exception), f"others were disturbed: {answers[-1]}")
        # (what it is sent ends: the messages in order up to some byte, and the text where there was room for it)
        got = sleeper.rest()
        text = TEXTS["slow"]
        front = got.removesuffix(text)
        want(len(front) < flood.wanted, "all has come to it")
        want(flood.is_front(front), f"wrong bytes came: {shown(got)}")
        is_whole = len(front) % (len(flood.pattern) // flood.EACH) == 0
        want(front is got or is_whole, f"the text stands in a message: {shown(got)}")
    return (f"{len(front)} of {flood.wanted} bytes and {'the text' if got.endswith(text) else 'no text'}, "
            f"{answers[-1]} answers to others meanwhile")


def talk(server, stop, answers):
    """Requests and answers between two further clients, on both workers, until it is to stop."""
    count = 0
    try:
        one, two = client_on(server, 0, 2), client_on(server, 1, 2)
        one.subscribe(b"ask")
        two.subscribe(b"answer")
        while not stop.is_set():
            two.send(b"PUB ask answer 2\r\nhi\r\n")
            want(one.message() == (b"ask", b"1", b"answer", b"hi"), "another request came")
            one.send(b"PUB answer 2\r\nho\r\n")
            want(two.message() == (b"answer", b"1", None, b"ho"), "another answer came")
            count += 1
        answers.append(count)
    except Exception as error:
        answers.append(error)


def same_worker(program, divide):
    """On the publisher's worker"""
    return stuck(program, divide, 0)


def other_worker(program, divide):
    """On another worker"""
    return stuck(program, divide, 1)


def reads_again(program, divide):
    """Who stops reading and reads again at once gets all, or the text as the last that it is sent"""
    with Server(program, "--workers", 1, "--outbox", 16) as server:
        receiver, publisher = Client(server), Client(server)
        receiver.subscribe(b"flood")
        flood = Flood(2048, size=SIZE)
        publisher.send(flood.piece)
        publisher.ping()
        while len(receiver.got) < flood.wanted and not receiver.got.endswith(TEXTS["slow"]):
            want(receiver.more(), f"closed without a text: {shown(receiver.got)}")
        got = bytes(receiver.got)
        is_closed = got.endswith(TEXTS["slow"])
        front = got.removesuffix(TEXTS["slow"])
        want(flood.is_front(front), f"wrong bytes came: {shown(got)}")
        want(len(front) % (len(flood.pattern) // flood.EACH) == 0, "a message was cut")
        if is_closed:
            want(not receiver.more(), "something comes after the text")
        else:
            receiver.take(len(got))
            receiver.ping()
    return f"{len(front) * 2048 // flood.wanted} of 2048 messages{' and the text' if is_closed else ''}"


def outbox_of_one(program, divide):
    """With an outbox of 1 a second message of one piece is missed, or both come"""
    with Server(program, "--workers", 1, "--outbox", 1) as server:
        client = Client(server)
        client.subscribe(b"a")
        client.send(b"PUB a 1\r\n1\r\nPUB a 1\r\n2\r\n")
        one = b"MSG a 1 1\r\n1\r\n"
        ends = one + b"MSG a 1 1\r\n2\r\n", one + TEXTS["slow"]
        while bytes(client.got) not in ends:
            want(any(it.startswith(client.got) for it in ends), f"came {client.got!r}")
            want(client.more(), f"closed after {client.got!r}")
        missed = client.got.endswith(TEXTS["slow"])
        if missed:
            want(not client.more(), "something comes after the text")
        with Client(server) as other:
            other.ping()
    return "missed, with the text" if missed else "both came"


if __name__ == "__main__":
    run(__doc__, same_worker, other_worker, reads_again, outbox_of_one)

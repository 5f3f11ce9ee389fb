#!/usr/bin/env python3
"""Publishers that wait for receivers that don't read: how long, who lets them on, and how who doesn't read is ended."""

import time

from clients import LIMIT, TEXTS, USER, Client, Flood, Server, client_on, is_alive, run, shown, storm, wait_for, want
from storming import Hearing, Sending, deaf, fill_sockets, is_closed_within, numbered, spread

# How long a receiver that doesn't read is waited for at once, in seconds, and what a busy machine may add.
PATIENCE, MORE = 2, 4
# How long a client may read nothing while what it sends waits.
DEADLINE = 10
# For how many seconds those are sent messages who read as fast as they can.
FLOOD = 45
SIZE = 512


@storm()
def hundred_deaf(program, divide, workers):
    """100 receivers on one subject that don't read cost the one that does two seconds, once"""
    with Server(program, "--workers", workers) as server:
        publisher, reader = spread(server, 2, workers)
        before = server.descriptors()
        for it in range(100):
            deaf(server, b"flood", it % workers, workers).keep()
        # (their sockets are full, and nearly as much waits for each)
        fill_sockets(server, publisher, b"flood")
        reader.subscribe(b"flood")
        begin = time.monotonic()
        Flood(3_000).run(publisher, [reader])
        took = time.monotonic() - begin
        want(took < PATIENCE + MORE, f"it took {took:.1f} s")
        wait_for(lambda: server.descriptors() <= before, "those that don't read are still connected", 2 * MORE)
        ended = time.monotonic() - begin
        Client.kept.clear()
    return f"{took:.1f} s, and all were closed after {ended:.1f} s"


def held_by_one(reader, publishers):
    """Has publishers wait for one that doesn't read. Returns who writes for them, and who reads."""
    hearing = Hearing([reader])
    writing = [Sending(it, numbered(b"held", range(100), SIZE), times=1_000) for it in publishers]
    wait_for(lambda: time.monotonic() > hearing.last + 0.3, "the publishers don't wait for who doesn't read")
    return writing, hearing


@storm(1, 2, 4)
def killed(program, divide, workers):
    """The receiver goes for whom 100 publishers wait: they go on at once"""
    with Server(program, "--workers", workers) as server:
        reader, publishers = Client(server), spread(server, 100, workers)
        sleeper = deaf(server, b"held", workers - 1, workers)
        fill_sockets(server, reader, b"held")
        reader.subscribe(b"held")
        writing, hearing = held_by_one(reader, publishers)
        before, begin = hearing.bytes, time.monotonic()
        sleeper.reset()
        wait_for(lambda: hearing.bytes > before, "no publisher goes on")
        took = time.monotonic() - begin
        for it in writing:
            it.stop = True
        for it in writing:
            it.join()
        hearing.end()
        want(took < 0.5, f"the next message came after {took:.2f} s")
    return f"{1000 * took:.0f} ms"


@storm(1, 2)
def revoked(program, divide, workers):
    """A publisher that waits is closed by a reload, and publishes nothing after it"""
    late = {"user": "late", "password": "late"}
    with Server(program, "--workers", workers, policy={"accounts": {"A": {"users": [USER, late]}}}) as server:
        reader, marker = spread(server, 2, workers)
        publisher, other = Client(server, user="late"), deaf(server, b"held", workers - 1, workers)
        fill_sockets(server, marker, b"held")
        reader.subscribe(b">")
        sending = Sending(publisher, numbered(b"held", range(100), SIZE), times=1_000)
        count = 0
        reader.socket.settimeout(0.3)
        try:
            while True:
                while b"\r\n" not in reader.got or len(reader.got) < SIZE + 40:
                    want(reader.more(), "the reader was closed")
                want(reader.message()[0] == b"held", "another message came")
                count += 1
        except Exception as error:
            want("nothing came" in str(error), str(error))
        reader.socket.settimeout(LIMIT)
        begin = time.monotonic()
        server.frame({"accounts": {"A": {"users": [USER]}}})
        want([server.line(), server.line()] == ["epoch 2", f"gone {publisher.number}"], f"printed {server.lines}")
        marker.send(b"PUB mark 0\r\n\r\n")
        got = is_closed_within(publisher, PATIENCE + MORE, TEXTS["authorization"])
        took = time.monotonic() - begin
        want(got == TEXTS["authorization"], f"the publisher got {shown(got)}")
        while (subject := reader.message()[0]) != b"mark":
            want(subject == b"held", "another message came")
        other.close()
        reader.ping()
        sending.join()
    return f"{count} messages, closed {took:.1f} s after the reload"


@storm(1, 2, 4)
def end_while_held(program, divide, workers):
    """The end of input while publishers wait: what was accepted comes whole, and it stops"""
    with Server(program, "--workers", workers) as server:
        reader, publishers = Client(server), spread(server, 10, workers)
        deaf(server, b"held", workers - 1, workers).keep()
        fill_sockets(server, reader, b"held")
        reader.subscribe(b"held")
        _, hearing = held_by_one(reader, publishers)
        begin = time.monotonic()
        server.end_input()
        want(server.line() == "stopped", f"printed {server.lines}")
        want(server.status() == 0, f"status {server.status()}")
        took = time.monotonic() - begin
        want(took < 4 + MORE, f"it stopped after {took:.1f} s")
        wait_for(lambda: hearing.ended, "the reader isn't ended")
        each = len(b"MSG held 1 512\r\n\r\n") + SIZE
        want(hearing.bytes % each == 0, f"the reader got {hearing.bytes} bytes, and a message has {each}")
        hearing.end()
        Client.kept.clear()
    return f"{took:.1f} s"


@storm(2)
def trickler(program, divide, workers):
    """Who reads half an outbox each 1.9 s, and has its publisher wait all the time, is closed"""
    size = 1 << 16
    with Server(program, "--workers", workers, "--outbox", 16) as server:
        publisher, receiver = Client(server), client_on(server, workers - 1, workers, receive=1 << 16)
        receiver.subscribe(b"flood")
        sending = Sending(publisher, numbered(b"flood", range(16), size), times=1 << 20)
        begin, got = time.monotonic(), True
        while got and time.monotonic() < begin + 20:
            left = 8 * size
            while left > 0 and (got := receive(receiver, left)):
                left -= got
            time.sleep(1.9)
        took = time.monotonic() - begin
        want(not got, f"it isn't closed after {took:.1f} s")
        is_alive(server)
        sending.stop = True
        sending.join()
    return f"after {took:.1f} s"


def receive(client, most):
    """Reads at most this number of bytes, and returns how many came: none at the end."""
    try:
        return len(client.socket.recv(most))
    except ConnectionResetError:
        return 0


@storm()
def outbox_of_one(program, divide, workers):
    """Receivers on all workers that read as fast as they can, with an outbox of 1, get all of a flood of 45 s"""
    with Server(program, "--workers", workers, "--outbox", 1) as server:
        publisher, *receivers = spread(server, workers + 1, workers)
        for it in receivers:
            it.subscribe(b"flood")
        hearing = Hearing(receivers)
        sending = Sending(publisher, numbered(b"flood", range(100)), times=1 << 30)
        time.sleep(FLOOD)
        want(not hearing.ended, f"{len(hearing.ended)} receivers were closed")
        sending.stop = True
        sending.join()
        wanted = 100 * sending.sent * len(receivers) * (len(b"MSG flood 1 16\r\n\r\n") + 16)
        hearing.wait(wanted, "all is to arrive")
        want(hearing.bytes == wanted, f"{hearing.bytes} bytes came in place of {wanted}")
        hearing.end()
        is_alive(server)
    return f"{100 * sending.sent} messages to each of {len(receivers)}"


@storm(1, 2)
def reads_a_little(program, divide, workers):
    """A Slow Consumer that reads a little once it has missed messages, and then no more, is closed"""
    size = 1_000_000
    with Server(program, "--workers", workers, "--outbox", 16) as server:
        publisher, receiver = Client(server), client_on(server, workers - 1, workers, receive=1 << 16)
        before = server.descriptors() - 1
        receiver.subscribe(b"large")
        # (its socket holds some four of them, so the last are missed)
        sending = Sending(publisher, numbered(b"large", range(24), size))
        receiver.take(100_000)
        # (half way between the end of patience and that of a socket that takes nothing)
        time.sleep(PATIENCE + 1)
        receiver.take(4 * size)
        begin = time.monotonic()
        wait_for(lambda: server.descriptors() <= before, "it is still connected", PATIENCE + 2 * MORE)
        took = time.monotonic() - begin
        got = receiver.rest()
        sending.join()
        is_alive(server)
    return f"after {took:.1f} s, {len(got)} bytes came then"


@storm(1, 2)
def deaf_pair(program, divide, workers):
    """Two clients that publish to each other and don't read are both ended, or one and the other goes on"""
    with Server(program, "--workers", workers) as server:
        clients = [client_on(server, it % workers, workers, receive=4096) for it in range(2)]
        before = server.descriptors() - 2
        for place, it in enumerate(clients):
            it.subscribe(b"to.%d" % place)
        begin = time.monotonic()
        writing = [Sending(it, numbered(b"to.%d" % (1 - place), range(100), SIZE), times=10_000)
                   for place, it in enumerate(clients)]
        wait_for(lambda: server.descriptors() < before + 2, "nobody is closed", DEADLINE + MORE)
        took = time.monotonic() - begin
        # (who is left publishes to nobody)
        wait_for(lambda: server.descriptors() <= before or all(it.is_over() or it.sent > 0 for it in writing),
                 "the other one waits", DEADLINE + MORE)
        for it in writing:
            it.stop = True
        is_alive(server)
    return f"after {took:.1f} s"


@storm(1, 2)
def more_than_an_outbox(program, divide, workers):
    """One message for 600 subscriptions of a client whose outbox holds 512: it is closed, the publisher goes on"""
    with Server(program, "--workers", workers, "--outbox", 512) as server:
        publisher, receiver = spread(server, 2, workers)
        receiver.send(b"".join(b"SUB many %d\r\n" % it for it in range(600)))
        receiver.ping()
        begin = time.monotonic()
        publisher.send(b"PUB many 2\r\nhi\r\n")
        publisher.ping()
        took = time.monotonic() - begin
        got = is_closed_within(receiver, PATIENCE + MORE)
        want(got.count(b"MSG many") <= 512, f"{got.count(b'MSG many')} deliveries came")
        want(got.endswith(TEXTS["slow"]), f"the last that came is {shown(got)}")
        want(took < PATIENCE, f"the publisher waited for {took:.1f} s")
    return f"{got.count(b'MSG many')} deliveries came"


if __name__ == "__main__":
    run(__doc__, hundred_deaf, killed, revoked, end_while_held, trickler, outbox_of_one, reads_a_little, deaf_pair,
        more_than_an_outbox, at_once=4)

#!/usr/bin/env python3
"""Bursts to healthy receivers: whoever reads is sent all, in order, and is closed by none of them."""

import concurrent.futures
import contextlib
import selectors
import statistics
import time

from clients import LIMIT, Client, Flood, Publishing, Receiving, Server, client_on, is_alive, run, shown, storm, want
from storming import Sending, numbered, spread, take_order


@storm(1, 2, 4)
def wide(program, divide, workers):
    """A burst of 1,500 messages to 40 receivers, five times"""
    with Server(program, "--workers", workers) as server:
        publisher, receivers = Client(server), spread(server, 40, workers)
        for it in receivers:
            it.subscribe(b"flood")
        for _ in range(5):
            Flood(1_500).run(publisher, receivers)


@storm(1, 2)
def many_subscriptions(program, divide, workers):
    """110 messages to one receiver with 10 subscriptions"""
    with Server(program, "--workers", workers) as server:
        publisher, receiver = spread(server, 2, workers)
        sids = [b"%d" % it for it in range(10)]
        for it in sids:
            receiver.subscribe(b"flood", it)
        publisher.send(numbered(b"flood", range(110)))
        take_order(receiver, 110, sids)
        for it in (publisher, receiver):
            it.ping()


@storm(1, 2, 4)
def fan_in(program, divide, workers):
    """140 messages of each of 100 publishers at the same moment to one collector"""
    with Server(program, "--workers", workers) as server:
        collector, publishers = client_on(server, workers - 1, workers), spread(server, 100, workers)
        collector.subscribe(b"in.*")
        pieces = [numbered(b"in.%d" % it, range(140)) for it in range(100)]
        for publisher, piece in zip(publishers, pieces):
            publisher.send(piece)
        came = [0] * 100
        for _ in range(100 * 140):
            subject, _, _, payload = collector.message()
            number = int(subject[3:])
            want(int(payload) == came[number], f"of publisher {number} came {int(payload)} in place of {came[number]}")
            came[number] += 1
        for it in (collector, *publishers):
            it.ping()


def two_lag(program, workers, ahead, *words):
    """Floods two receivers that read 5 and 4 MB/s for 4 seconds, and then the rest: at most so many bytes."""
    flood, rates, end = Flood(1 << 22, size=128), (5_000_000, 4_000_000), time.monotonic() + 4
    with Server(program, "--workers", workers, *words) as server:
        publishing = Publishing(flood, Client(server))
        clients = spread(server, 2, workers, receive=1 << 16)
        for it in clients:
            it.subscribe(b"flood")
        receiving = [Receiving(flood, it) for it in clients]
        with concurrent.futures.ThreadPoolExecutor(3) as pool:
            reads = [pool.submit(read_paced, *it, end) for it in zip(receiving, rates)]
            publishes = pool.submit(publish_until, publishing, lambda: any(it.done() for it in reads),
                                    lambda: publishing.sent < min(it.got for it in receiving) + ahead)
            for it in (*reads, publishes):
                it.result()
        read = [it.got for it in receiving]
        # (the message in hand is the last)
        each, sent = len(flood.piece) // flood.EACH, -(-publishing.sent * flood.EACH // len(flood.piece))
        flood.sent_bytes, flood.wanted = sent * each, sent * (len(flood.pattern) // flood.EACH)
        left = [publishing.step, *(it.step for it in receiving)]
        for it in clients:
            it.socket.setblocking(False)
        while left:
            left = [it for it in left if not it()]
            want(time.monotonic() < end + LIMIT, f"not all came: {[it.got for it in receiving]} of {flood.wanted}")
            time.sleep(0.001)
    return f"{read[0] >> 20} and {read[1] >> 20} MiB of {publishing.sent >> 20}"


def read_paced(receiving, rate, end):
    """Reads this number of bytes a second until a moment."""
    begin = time.monotonic()
    receiving.client.socket.settimeout(0.5)
    while (passed := time.monotonic()) < end:
        time.sleep(max(0, receiving.got / rate - (passed - begin)))
        with contextlib.suppress(TimeoutError):
            receiving.step(1 << 16)


def publish_until(publishing, is_over, may_go_on):
    """Publishes as fast as it can and may."""
    publishing.client.socket.setblocking(False)
    while not is_over():
        before = publishing.sent
        if may_go_on():
            publishing.step()
        if publishing.sent == before:
            time.sleep(0.0005)


@storm(2)
def two_readers_that_lag(program, divide, workers):
    """Two receivers that read 5 and 4 MB/s for 4 seconds, and then the rest"""
    return two_lag(program, workers, 1 << 24)


@storm(2)
def two_that_lag_with_sixteen(program, divide, workers):
    """The same with an outbox of 16"""
    return two_lag(program, workers, 1 << 24, "--outbox", 16)


@storm(2)
def two_that_lag_with_one(program, divide, workers):
    """The same with an outbox of 1"""
    return two_lag(program, workers, 1 << 18, "--outbox", 1)


def with_outbox(program, workers, outbox, messages):
    """Floods 8 receivers on all workers that have so small an outbox."""
    with Server(program, "--workers", workers, "--outbox", outbox) as server:
        publisher, receivers = Client(server), spread(server, 8, workers)
        for it in receivers:
            it.subscribe(b"flood")
        begin = time.monotonic()
        Flood(messages).run(publisher, receivers)
        return f"{messages / (time.monotonic() - begin):.0f} messages a second"


@storm(1, 2)
def outbox_of_one(program, divide, workers):
    """8 receivers with an outbox of 1"""
    return with_outbox(program, workers, 1, 2_000)


@storm(2, 4)
def outbox_of_two(program, divide, workers):
    """8 receivers with an outbox of 2"""
    return with_outbox(program, workers, 2, 2_000)


@storm(2)
def outbox_of_sixteen(program, divide, workers):
    """8 receivers with an outbox of 16"""
    return with_outbox(program, workers, 16, 10_000)


@storm(1, 2)
def each_other(program, divide, workers):
    """Two clients that publish to each other at full speed for 3 seconds, and read"""
    seconds = 3
    with Server(program, "--workers", workers) as server:
        clients = [client_on(server, it % workers, workers) for it in range(2)]
        floods = [Flood(1 << 30, b"flood.%d" % it) for it in range(2)]
        for place, it in enumerate(clients):
            it.subscribe(b"flood.%d" % (1 - place))
        publishing = [Publishing(*it) for it in zip(floods, clients)]
        receiving = [Receiving(flood, it) for flood, it in zip(reversed(floods), clients)]
        chooser = selectors.DefaultSelector()
        for place, it in enumerate(clients):
            it.socket.setblocking(False)
            chooser.register(it.socket, selectors.EVENT_READ | selectors.EVENT_WRITE, place)
        begin = last = time.monotonic()
        while time.monotonic() < begin + seconds:
            for key, events in chooser.select(1):
                if events & selectors.EVENT_READ:
                    receiving[key.data].step()
                    last = time.monotonic()
                if events & selectors.EVENT_WRITE:
                    publishing[key.data].step()
            want(time.monotonic() < last + 2.5, f"nothing came for 2.5 s after {[it.got for it in receiving]} bytes")
        got = sum(it.got for it in receiving) * Flood.EACH // len(floods[0].pattern)
    return f"{got} messages"


@storm(1, 2)
def itself_late(program, divide, workers):
    """10,000 messages of a client to itself before it reads"""
    flood = Flood(10_000, size=128)
    with Server(program, "--workers", workers) as server:
        client = Client(server, receive=4096)
        client.subscribe(b"flood")
        sending = Sending(client, *(flood.piece[:flood.sent_bytes - at]
                                    for at in range(0, flood.sent_bytes, len(flood.piece))))
        time.sleep(1)
        is_alive(server)
        receiving = Receiving(flood, client)
        while receiving.got < flood.wanted:
            data = client.socket.recv(1 << 18)
            want(data and flood.is_front(data, receiving.got), f"after {receiving.got} right bytes came {shown(data)}")
            receiving.got += len(data)
        sending.join()
        client.ping()
        is_alive(server)


@storm(2)
def ping_beside(program, divide, workers):
    """PINGs of a client that a flood comes to are answered"""
    flood, seconds = Flood(1 << 30), 2
    with Server(program, "--workers", workers) as server:
        client, publisher = spread(server, 2, workers)
        client.subscribe(b"flood")
        sending = Sending(publisher, flood.piece, times=1 << 20)
        seen, lengths, end = 0, [], time.monotonic() + seconds
        while (begin := time.monotonic()) < end:
            client.send(b"PING\r\n")
            while (at := client.got.find(b"PONG\r\n")) < 0:
                want(time.monotonic() < begin + 5, f"no PONG within 5 s, after {len(lengths)} of them")
                want(client.more(), "closed")
            lengths.append(time.monotonic() - begin)
            del client.got[at:at + 6]
            whole = len(client.got)
            want(flood.is_front(client.got, seen), f"after {seen} right bytes came {shown(client.got)}")
            seen += whole
            client.got.clear()
        sending.stop = True
    middle, most = 1000 * statistics.median(lengths), 1000 * max(lengths)
    return f"{len(lengths)} of them, the median {middle:.1f} ms, at most {most:.1f}"


if __name__ == "__main__":
    run(__doc__, wide, many_subscriptions, fan_in, two_readers_that_lag, two_that_lag_with_sixteen,
        two_that_lag_with_one, outbox_of_one, outbox_of_two, outbox_of_sixteen, each_other, itself_late, ping_beside)

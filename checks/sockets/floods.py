#!/usr/bin/env python3
"""A publisher as fast as it can, messages of 16 bytes in writes of 64 KiB: none is lost, and nobody is closed."""

import threading

from clients import Client, Flood, Server, client_on, run, run_floods, shown, want

# (no flood has fewer messages than two outboxes hold)
MESSAGES = 2_000_000


def flood(program, divide, places, workers=2):
    messages = max(MESSAGES // divide, 2_500)
    with Server(program, "--workers", workers) as server:
        publisher = client_on(server, 0, workers)
        receivers = [client_on(server, it, workers) for it in places]
        for it in receivers:
            it.subscribe(b"flood")
        Flood(messages).run(publisher, receivers)
    return f"{messages} messages each"


def same_worker(program, divide):
    """To a subscriber on the publisher's worker"""
    return flood(program, divide, [0])


def other_worker(program, divide):
    """To a subscriber on another worker"""
    return flood(program, divide, [1])


def eight_at_once(program, divide):
    """To eight subscribers on both workers at once"""
    return flood(program, divide, [0, 1] * 4)


def eight_pairs(program, divide):
    """Eight publishers at once, each to a subscriber of its own, on the same worker and on another"""
    messages = max(MESSAGES // 8 // divide, 2_500)
    with Server(program, "--workers", 2) as server:
        floods = []
        for number in range(8):
            subject = b"flood.%d" % number
            publisher, receiver = client_on(server, number % 2, 2), client_on(server, number // 2 % 2, 2)
            receiver.subscribe(subject)
            floods.append((Flood(messages, subject), publisher, [receiver]))
        run_floods(floods)
    return f"8 times {messages} messages"


def eight_publishers(program, divide):
    """Eight publishers at once on both workers, to one subscriber"""
    # (this one looks at each message by itself, slower than they are sent: on any machine it is behind for a few seconds, less
    # than there is patience for)
    messages = max(MESSAGES // 32 // divide, 2_500)
    with Server(program, "--workers", 2) as server:
        receiver = client_on(server, 0, 2)
        receiver.subscribe(b"flood.*")
        floods = [Flood(messages, b"flood.%d" % it) for it in range(8)]
        publishers = [client_on(server, it % 2, 2) for it in range(8)]
        threads = [threading.Thread(target=publish, args=it, daemon=True) for it in zip(floods, publishers)]
        for it in threads:
            it.start()
        # (what each publisher's next message is, and how many have come)
        size = len(floods[0].pattern) // Flood.EACH
        records = [[it.pattern[at:at + size] for at in range(0, len(it.pattern), size)] for it in floods]
        came, digit = [0] * 8, len(b"MSG flood.")
        for _ in range(8 * messages):
            while len(receiver.got) < size:
                want(receiver.more(), f"closed after {came} of {messages} messages each: {shown(receiver.got)}")
            it = receiver.take(size)
            number = it[digit] - ord("0")
            is_next = 0 <= number < 8 and it == records[number][came[number] % Flood.EACH]
            want(is_next, f"after {came} messages came {shown(it)}")
            came[number] += 1
        receiver.ping()
        for it in threads:
            it.join()
        for it in publishers:
            it.ping()
    return f"8 times {messages} messages"


def publish(flood, publisher):
    """Writes a whole flood."""
    for at in range(0, flood.sent_bytes, len(flood.piece)):
        publisher.send(flood.piece[:flood.sent_bytes - at])


def itself(program, divide):
    """To the publisher's own subscription"""
    messages = max(MESSAGES // 10 // divide, 2_500)
    with Server(program, "--workers", 1) as server, Client(server) as client:
        client.subscribe(b"flood")
        flood = Flood(messages)
        sent = got = 0
        # (it reads what has come before each write, so neither side waits for the other for good)
        while got < flood.wanted:
            if sent < flood.sent_bytes:
                piece = flood.piece[:flood.sent_bytes - sent]
                client.send(piece)
                sent += len(piece)
            behind = flood.wanted if sent == flood.sent_bytes else sent // 32 * 34
            while got < behind:
                data, client.got = bytes(client.got), bytearray()
                assert flood.is_front(data, got), f"after {got} right bytes came {data[:100]!r}"
                got += len(data)
                if got < behind:
                    assert client.more(), f"closed after {got} of {flood.wanted} bytes"
        client.ping()
    return f"{messages} messages"


if __name__ == "__main__":
    run(__doc__, same_worker, other_worker, eight_at_once, eight_pairs, eight_publishers, itself)

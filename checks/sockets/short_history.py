#!/usr/bin/env python3
"""A million messages through a history of 1,000: nothing is lost, and memory is steady."""

from clients import Client, Flood, Server, client_on, run, want

MESSAGES = 1_000_000
HISTORY = 1_000
# How much more memory it may have at the end than after a tenth, in KiB: a history that isn't handed out keeps some
# 400 bytes a message.
MORE = 64 * 1024


def flood(program, divide, places):
    messages = max(MESSAGES // divide, 10 * HISTORY)
    with Server(program, "--workers", 2, "--history", HISTORY) as server:
        publisher = client_on(server, 0, 2)
        receivers = [client_on(server, it, 2) for it in places]
        for it in receivers:
            it.subscribe(b"flood")
        seen = []
        Flood(messages).run(publisher, receivers, lambda part: seen.append(server.kilobytes())
                            if part >= (len(seen) + 1) / 10 else None)
        last = server.kilobytes()
        early = seen[0]
        want(last - early < MORE, f"{early // 1024} MiB after a tenth, {last // 1024} MiB at the end")
    return f"{messages} messages each, {early // 1024} MiB after a tenth, {last // 1024} MiB at the end"


def one(program, divide):
    """To a subscriber on another worker"""
    return flood(program, divide, [1])


def both(program, divide):
    """To two subscribers, one on each worker"""
    return flood(program, divide, [0, 1])


def sessions_come_and_go(program, divide):
    """Sessions that come, subscribe and go, over a history of 10"""
    count = max(10_000 // divide, 100)
    with Server(program, "--history", 10) as server, Client(server) as watcher:
        watcher.subscribe(b"x")
        for it in range(count):
            with Client(server) as other:
                other.subscribe(b"a.*")
                other.send(b"UNSUB 1\r\nPUB x 4\r\n%04d\r\nPING\r\n" % it)
                other.line(b"PONG")
            want(watcher.message()[3] == b"%04d" % it, "another message came")
    return f"{count} sessions"


if __name__ == "__main__":
    run(__doc__, one, both, sessions_come_and_go)

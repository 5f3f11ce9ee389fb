#!/usr/bin/env python3
"""What one peer may cost in time: while it sends the dearest that it may, another tenant's PINGs are answered within 20
milliseconds on a quiet machine."""

import json
import time

from clients import Client, Server, run, storm, want
from storming import OTHER, TENANTS, Sending, pinger_on, spread
from tenants import Crowd, judged

# For how many milliseconds nobody else may be served.
LONGEST = 20
SUBSCRIPTIONS = 4_096
SUBS = b"".join(b"SUB ab %d\r\n" % sid for sid in range(SUBSCRIPTIONS))
UNSUBS = b"".join(b"UNSUB %d\r\n" % sid for sid in range(SUBSCRIPTIONS))
PINGS = (1 << 20) // len(b"PING\r\n") * b"PING\r\n"


def beside(server, workers, times, act):
    """Acts so often while another tenant's PINGs are measured."""
    moments = []
    with pinger_on(server, workers) as pinger:
        crowd = Crowd(server)
        for turn in range(times):
            begin = time.monotonic()
            act(turn)
            moments.append((begin, time.monotonic()))
            time.sleep(0.05)
        seen = pinger.stop()
    return judged(pinger, seen, moments, LONGEST * crowd.slowed())


def subscribed(server, client, wishes):
    Sending(client, wishes + b"PING\r\n")
    client.line(b"PONG")


@storm(1)
def many_subscriptions(program, divide, workers):
    """4,096 SUBs in one piece, 4,096 UNSUBs and a close, where 98,304 subscriptions have the pattern"""
    with Server(program, "--workers", workers, policy=TENANTS) as server:
        others = spread(server, 24, workers)
        for it in others:
            subscribed(server, it, SUBS)
        client = Client(server)

        def act(turn):
            nonlocal client
            subscribed(server, client, SUBS)
            subscribed(server, client, UNSUBS)
            subscribed(server, client, SUBS)
            client.close()
            client = Client(server)

        text = beside(server, workers, 3, act)
        for it in others:
            it.ping()
    return text


@storm(1)
def mebibyte_of_pings(program, divide, workers):
    """A MiB of PING"""
    with Server(program, "--workers", workers, policy=TENANTS) as server, Client(server) as client:
        def act(turn):
            sending = Sending(client, PINGS)
            want(client.take(len(PINGS)) == PINGS.replace(b"PING", b"PONG"), "other bytes than PONGs came")
            sending.join()

        return beside(server, workers, 3, act)


def nested(front, middle, end, room):
    """Returns JSON that is nested as deep as this room allows."""
    depth = (room - len(middle)) // (len(front) + len(end))
    return depth * front + middle + depth * end


@storm(1)
def nested_connects(program, divide, workers):
    """CONNECTs of 4,096 bytes of nested JSON"""
    room = 4_096 - len(b'CONNECT {"a":}')
    texts = [nested(b"[", b"", b"]", room), nested(b'{"a":', b"1", b"}", room), nested(b'[{"":', b'""', b"}]", room),
             b"[" + b",".join((room // 202) * [nested(b"[", b"", b"]", 200)]) + b"]"]
    with Server(program, "--workers", workers, policy=TENANTS) as server:
        def act(turn):
            for text in texts:
                for _ in range(10):
                    with Client(server, connect=False) as client:
                        client.send(b'CONNECT {"a":%b}\r\n' % text)
                        client.line(b"-ERR")

        return beside(server, workers, 3, act)


@storm(1)
def many_users(program, divide, workers):
    """Reloads with 24,000 users in 1,200 accounts"""
    def policy(turn):
        accounts = {f"a{it}": {"users": [{"user": f"u{it}.{n}", "password": str(turn)} for n in range(20)]}
                    for it in range(1_200)}
        return json.dumps({"accounts": {**accounts, "B": {"users": [OTHER]}}}, separators=(",", ":"))

    with Server(program, "--workers", workers, policy=policy(0)) as server:
        def act(turn):
            server.frame(policy(turn + 1))
            want((line := server.line()) == f"epoch {turn + 2}", f"printed {line}")

        return beside(server, workers, 3, act)


if __name__ == "__main__":
    run(__doc__, many_subscriptions, mebibyte_of_pings, nested_connects, many_users)

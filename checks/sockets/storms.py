#!/usr/bin/env python3
"""Many connections: a storm of them, as many sessions as there may be, and more than there are descriptors for."""

import time

from clients import (LIMIT, TEXTS, Client, Failed, Server, is_alive, raise_descriptors, run, shown, wait_for, want)

STORM = 1_000
SESSIONS = 4_096


def storm(program, divide):
    """1,000 connections opened and closed in a storm, with and without a CONNECT, before and after INFO"""
    raise_descriptors(STORM + 100)
    with Server(program) as server, Client(server) as watcher:
        watcher.subscribe(b"storm")
        is_alive(server)
        before = server.descriptors()
        for kind in range(4):
            opened = []
            for _ in range(STORM):
                client = Client(server, connect=None)
                if kind % 2:
                    client.send(Client.connecting() + b"SUB a 1\r\nPUB a 1\r\nx\r\n")
                if kind < 2:
                    client.close()
                else:
                    opened.append(client)
            for number, client in enumerate(opened):
                if number % 2:
                    client.reset()
                else:
                    client.close()
            is_alive(server)
        wait_for(lambda: server.descriptors() <= before, f"more than {before} descriptors are open, as before")
        with Client(server) as other:
            other.send(b"PUB storm 2\r\nhi\r\n")
        want(watcher.message() == (b"storm", b"1", None, b"hi"), "another message came")
    return f"{4 * STORM} connections"


def sessions(program, divide):
    """4,096 sessions stand, the next is refused with its text, and accepted once one has gone"""
    raise_descriptors(SESSIONS + 100)
    with Server(program) as server:
        clients = [Client(server) for _ in range(SESSIONS)]
        with Client(server, connect=False) as more:
            more.ping()
            more.send(Client.connecting())
            got = more.rest()
            want(got == TEXTS["connections"], f"the 4,097th got {shown(got)}")
        for it in (clients[0], clients[-1]):
            it.ping()
        clients[0].subscribe(b"last")
        clients[-1].send(b"PUB last 2\r\nhi\r\n")
        want(clients[0].message() == (b"last", b"1", None, b"hi"), "another message came")
        clients.pop().close()
        end = time.monotonic() + LIMIT
        while True:
            more = Client(server, connect=False)
            more.send(Client.connecting() + b"PING\r\n")
            line = more.line()
            if line == b"PONG":
                break
            want(line + b"\r\n" == TEXTS["connections"], f"came {shown(line)}")
            want(time.monotonic() < end, f"refused for {LIMIT} s after one had gone")
            time.sleep(0.05)
        for it in clients:
            it.ping()
        memory = server.kilobytes()
    return f"the server has {memory // 1024} MiB"


def no_descriptors(program, divide):
    """Without descriptors accepting waits without spinning, those who are there are served, and it goes on later"""
    waiting = 20
    with Server(program, descriptors=40) as server:
        clients = []
        # (the system takes connections for the server, so INFO alone shows that one was accepted)
        while len(clients) < 60:
            client = Client(server, connect=None)
            client.socket.settimeout(2)
            try:
                client.line(b"INFO ")
            except Failed:
                client.socket.settimeout(LIMIT)
                break
            client.socket.settimeout(LIMIT)
            client.send(Client.connecting())
            client.ping()
            clients.append(client)
        want(8 <= len(clients) < 40, f"{len(clients)} were accepted with 40 descriptors")
        outside = [client] + [Client(server, connect=None) for _ in range(waiting - 1)]
        used, begin = server.seconds(), time.monotonic()
        time.sleep(3)
        used, passed = server.seconds() - used, time.monotonic() - begin
        want(used < passed / 2, f"{used:.2f} s of a processor in {passed:.2f} s, while none could be accepted")
        clients[0].subscribe(b"here")
        clients[1].send(b"PUB here 2\r\nhi\r\n")
        want(clients[0].message() == (b"here", b"1", None, b"hi"), "another message came")
        # (as many go as wait)
        for _ in range(min(waiting, len(clients))):
            clients.pop().close()
        for it in outside[:waiting]:
            it.line(b"INFO ")
            it.send(Client.connecting())
            it.ping()
        for it in clients + outside:
            it.ping()
    return f"{used:.2f} s of a processor in {passed:.1f} s"


if __name__ == "__main__":
    run(__doc__, storm, sessions, no_descriptors)

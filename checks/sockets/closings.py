#!/usr/bin/env python3
"""What is written out at the end of input, with full standard output, and where there are no more descriptors."""

import fcntl
import os
import selectors
import threading
import time

from clients import LIMIT, TEXTS, USER, Client, Failed, Server, client_on, run, shown, storm, want
from storming import OTHER, TENANTS, is_closed_within, numbered, spread

ONLY_FIRST = {"accounts": {"A": {"users": [USER]}}}


class Chatting:
    """A verbose client that publishes and reads as fast as it can: what was accepted of it, and what came to it."""

    def __init__(self, client, number):
        self.client, self.number, self.is_reset = client, number, False
        self.accepted, self.heard, self.rest, self.sent = 0, {}, b"", 0
        self.thread = threading.Thread(target=self._chat, daemon=True)

    def _chat(self):
        socket, waiting = self.client.socket, b""
        socket.setblocking(False)
        chooser = selectors.DefaultSelector()
        chooser.register(socket, selectors.EVENT_READ | selectors.EVENT_WRITE)
        while True:
            for _, events in chooser.select(1):
                try:
                    if events & selectors.EVENT_READ:
                        data = socket.recv(1 << 18)
                        if not data:
                            return
                        self._hear(data)
                    if events & selectors.EVENT_WRITE:
                        # (no more than so many wait for their answer)
                        if not waiting and self.sent < self.accepted + 4_000:
                            waiting = numbered(b"chat.%d" % self.number, range(self.sent, self.sent + 500), 8)
                            self.sent += 500
                        elif not waiting:
                            time.sleep(0.0005)
                        waiting = waiting[socket.send(waiting):]
                except BlockingIOError:
                    pass
                except (BrokenPipeError, ConnectionResetError):
                    if events & selectors.EVENT_READ:
                        self.is_reset = True
                        return
                    # (what can't be written any more isn't read either; what has come is)
                    chooser.modify(socket, selectors.EVENT_READ)

    def _hear(self, data):
        *lines, self.rest = (self.rest + data).split(b"\r\n")
        place = 0
        while place < len(lines):
            line = lines[place]
            if line == b"+OK":
                self.accepted += 1
            elif place + 1 < len(lines):
                place += 1
                self.heard.setdefault(line.split(b" ")[1], []).append(int(lines[place]))
            else:
                # (the payload is still to come)
                self.rest = line + b"\r\n" + self.rest
            place += 1


@storm(1, 2, 4)
def end_of_chat(program, divide, workers):
    """The end of input while four verbose clients publish to each other: whatever was answered +OK has come to all"""
    with Server(program, "--workers", workers) as server:
        clients = [client_on(server, it % workers, workers, verbose=True) for it in range(4)]
        for it in clients:
            it.send(b"SUB chat.* 1\r\n")
            it.line(b"+OK")
        chats = [Chatting(it, place) for place, it in enumerate(clients)]
        for it in chats:
            it.thread.start()
        time.sleep(1)
        server.end_input()
        want(server.line() == "stopped", f"printed {server.lines}")
        want(server.status() == 0, f"status {server.status()}")
        for it in chats:
            it.thread.join(LIMIT)
            want(not it.thread.is_alive(), "a client isn't ended")
        for it in chats:
            for other in chats:
                heard = it.heard.get(b"chat.%d" % other.number, [])
                want(heard == [*range(len(heard))], "messages are lost in the middle, or come twice")
                lost = other.accepted - len(heard)
                want(lost <= 0, f"{lost} of {other.accepted} messages that were answered +OK haven't come to another, "
                     f"whose connection was {'reset' if it.is_reset else 'ended'}")
        want(not any(it.is_reset for it in chats), f"{sum(it.is_reset for it in chats)} connections were reset")
    return f"{sum(it.accepted for it in chats)} messages"


class Unread(Server):
    """A server whose standard output nobody reads after its first line, a pipe that takes 4,096 bytes."""

    def _listen(self):
        fcntl.fcntl(self.process.stdout, fcntl.F_SETPIPE_SZ, 4096)
        line = b""
        while not line.endswith(b"\n") and (byte := os.read(self.process.stdout.fileno(), 1)):
            line += byte
        with self.changed:
            self.lines.append(line.decode().removesuffix("\n"))
            self.is_at_end = not line
            self.changed.notify_all()


@storm(1, 2)
def full_output(program, divide, workers):
    """Nobody reads standard output: a reload closes who is revoked, and the end of input ends the server"""
    deny = {**USER, "permissions": {"subscribe": {"deny": ["s.>"]}}}
    first = {"accounts": {"A": {"users": [USER]}, "B": {"users": [OTHER]}}}
    with Unread(program, "--workers", workers, policy=first) as server:
        client, other = Client(server), Client(server, user="other")
        client.send(b"".join(b"SUB s.%d a.long.sid.of.this.subscription.%d\r\n" % (it, it) for it in range(1_000)))
        client.ping()
        server.frame({"accounts": {"A": {"users": [deny]}, "B": {"users": [OTHER]}}})
        time.sleep(0.3)
        server.frame({"accounts": {"A": {"users": [deny]}}})
        got = is_closed_within(other, 10, TEXTS["authorization"])
        want(got == TEXTS["authorization"], f"who is revoked got {shown(got)}")
        client.ping()
        begin = time.monotonic()
        server.end_input()
        want(client.rest() == b"", "something came at the end")
        want(server.status() == 0, f"status {server.status()}")
    return f"ended after {time.monotonic() - begin:.1f} s"


def fill(server, most=400):
    """Returns connections without a CONNECT, until one more gets no INFO or one of them has to give way."""
    silent = []
    while len(silent) < most:
        client = Client(server, connect=None)
        client.socket.settimeout(1)
        try:
            client.line(b"INFO ")
        except Failed:
            client.close()
            break
        silent.append(client)
        first = silent[0].socket
        first.setblocking(False)
        try:
            if not first.recv(1):
                break
        except BlockingIOError:
            pass
        except ConnectionResetError:
            break
    return silent


@storm(2)
def watched_policy(program, divide, workers):
    """Connections without CONNECT take all descriptors, and the policy's file is read on, 40 times"""
    with Server(program, "--workers", workers, file=True, policy=TENANTS, descriptors=60) as server:
        client, other = Client(server), Client(server, user="other")
        silent = fill(server)
        epoch = 1
        for turn in range(40):
            epoch += 1
            server.write({"accounts": {**TENANTS["accounts"], f"T{turn}": {"users": []}}})
            want((line := server.line(10)) == f"epoch {epoch}", f"printed {line}")
            if turn % 10 == 0:
                silent += [Client(server, connect=None) for _ in range(5)]
        server.write(ONLY_FIRST)
        want((line := server.line(10)) == f"epoch {epoch + 1}", f"printed {line}")
        want((line := server.line(10)) == f"gone {other.number}", f"printed {line}")
        want(is_closed_within(other, 10, TEXTS["authorization"]) == TEXTS["authorization"], "another text came")
        client.ping()
    return f"{len(silent)} connections"


@storm(1, 2)
def gives_way(program, divide, workers):
    """With --connections 50 who has waited longest without CONNECT gives way, who is connected stays"""
    with Server(program, "--workers", workers, "--connections", 50) as server:
        clients = spread(server, 20, workers)
        silent = []
        for it in range(60):
            client = Client(server, connect=None)
            client.line(b"INFO ")
            silent.append(client)
        time.sleep(0.5)
        ended = [is_ended(it) for it in silent]
        # (a socket that lingers may count a moment longer)
        want(all(ended[:25]) and not any(ended[-20:]), f"ended are {[place for place, it in enumerate(ended) if it]}")
        want(ended == sorted(ended, reverse=True), f"ended are {[place for place, it in enumerate(ended) if it]}")
        for it in clients:
            it.ping()
        for it in silent[-10:]:
            it.send(Client.connecting())
            it.ping()
        more = [Client(server) for _ in range(20)]
        for it in (*clients, *more, *silent[-10:]):
            it.ping()
        want(server.descriptors() < 90, f"{server.descriptors()} descriptors are open")
    return f"{sum(ended)} of 60 gave way"


def is_ended(client):
    """Whether the server has ended this connection."""
    client.socket.settimeout(0.01)
    try:
        return not client.more()
    except Failed:
        return False
    finally:
        client.socket.settimeout(LIMIT)


@storm(1, 2)
def all_connected(program, divide, workers):
    """With --connections 20, all with a CONNECT: one more waits, and comes in once one has gone"""
    with Server(program, "--workers", workers, "--connections", 20) as server:
        clients = [Client(server) for _ in range(20)]
        late = Client(server, connect=None)
        late.socket.settimeout(1)
        try:
            late.line(b"INFO ")
            came = True
        except Failed:
            came = False
        want(not came, "one more was let in")
        late.socket.settimeout(LIMIT)
        for it in clients:
            it.ping()
        clients.pop().close()
        late.line(b"INFO ")
        late.send(Client.connecting())
        late.ping()


if __name__ == "__main__":
    run(__doc__, end_of_chat, full_output, watched_policy, gives_way, all_connected, at_once=2)

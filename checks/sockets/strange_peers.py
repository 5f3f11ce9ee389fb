#!/usr/bin/env python3
"""Peers that close at any byte, half close, send nothing, send a byte a second, or a large payload in pieces."""

import random
import socket
import threading
import time

from clients import TEXTS, Client, Server, is_alive, run, shown, wait_for, want

CONNECT = Client.connecting(verbose=True, headers=True)
# What a client sends, each frame with its answer.
TALK = [
    (CONNECT, b"+OK\r\n"),
    (b"PING\r\n", b"PONG\r\n"),
    (b"SUB other.> 1\r\n", b"+OK\r\n"),
    (b"PUB here 5\r\nhello\r\n", b"+OK\r\n"),
    (b"HPUB here there 12 14\r\nNATS/1.0\r\n\r\nhi\r\n", b"+OK\r\n"),
    (b"UNSUB 1\r\n", b"+OK\r\n"),
    (b"PUB a..b 0\r\n\r\n", b"-ERR 'Invalid Subject'\r\n"),
    (b"ping\n", b"PONG\r\n"),
]
BYTES = b"".join(sent for sent, _ in TALK)


def answers_of(front):
    """Returns what is answered to so many bytes of the talk."""
    answers, at = b"", 0
    for sent, answer in TALK:
        at += len(sent)
        if at <= front:
            answers += answer
    return answers


def closes(program, divide):
    """Closes, and resets, at any byte"""
    with Server(program) as server, Client(server) as watcher:
        watcher.subscribe(b"here")
        before = server.descriptors()
        for front in range(len(BYTES) + 1):
            for reset in (False, True):
                client = Client(server, connect=False)
                client.send(BYTES[:front])
                if reset:
                    client.reset()
                else:
                    client.close()
            watcher.ping_with_messages()
        wait_for(lambda: server.descriptors() <= before, "the descriptors of those that have gone aren't free")
        is_alive(server)
    return f"{2 * len(BYTES) + 2} connections"


def half_closes(program, divide):
    """Half closes at any byte: each whole frame is answered, and then the stream ends"""
    with Server(program) as server:
        is_alive(server)
        before = server.descriptors()
        for front in range(len(BYTES) + 1):
            with Client(server, connect=False) as client:
                client.send(BYTES[:front])
                client.socket.shutdown(socket.SHUT_WR)
                got, wanted = client.rest(), answers_of(front)
                want(got == wanted, f"to the first {front} bytes: {shown(got)}, and not {shown(wanted)}")
        wait_for(lambda: server.descriptors() <= before, "the descriptors of those that have gone aren't free")
        is_alive(server)
    return f"{len(BYTES) + 1} connections"


def cuts(program, divide):
    """Each cut of the talk in two pieces is answered as the whole is"""
    with Server(program) as server:
        for cut in range(1, len(BYTES)):
            with Client(server, connect=False) as client:
                client.send(BYTES[:cut])
                first = client.take(len(answers_of(cut)))
                want(first == answers_of(cut), f"to the first {cut} bytes: {shown(first)}")
                client.send(BYTES[cut:])
                client.socket.shutdown(socket.SHUT_WR)
                got = first + client.rest()
                want(got == answers_of(len(BYTES)), f"cut after {cut} bytes: {shown(got)}")
    return f"{len(BYTES) - 1} connections"


def sends_nothing(program, divide):
    """Those that send nothing stay, and cost no time"""
    with Server(program) as server:
        silent = [Client(server, connect=False) for _ in range(50)]
        half = [Client(server) for _ in range(50)]
        is_alive(server)
        used, begin = server.seconds(), time.monotonic()
        time.sleep(3)
        used, passed = server.seconds() - used, time.monotonic() - begin
        want(used < passed / 2, f"{used:.2f} s of a processor in {passed:.2f} s, with nothing to do")
        for it in silent + half:
            it.ping()
            it.close()
    return f"{used:.2f} s of a processor in {passed:.1f} s"


def byte_a_second(program, divide):
    """One byte a second, by ten clients, while others are served"""
    with Server(program) as server, Client(server) as watcher:
        watcher.subscribe(b"slow.*")
        slow = [Client(server) for _ in range(10)]
        frames = [b"PUB slow.%d 2\r\nhi\r\n" % it for it in range(10)]
        for at in range(len(frames[0])):
            for it, frame in zip(slow, frames):
                it.send(frame[at:at + 1])
            is_alive(server)
            want(not watcher.got, "a message came before its frame was whole")
            time.sleep(1)
        got = sorted(watcher.message() for _ in slow)
        want(got == sorted((b"slow.%d" % it, b"1", None, b"hi") for it in range(10)), f"came {got}")
        for it in slow:
            it.ping()


def large_payload(program, divide):
    """A payload of 1 MiB in pieces of many lengths, and as long a one with a header block"""
    size, chance = 1 << 20, random.Random(7)
    payload = chance.randbytes(size)
    frames = b"PUB large re 1048576\r\n" + payload + b"\r\n" \
        + b"HPUB large 12 1048576\r\nNATS/1.0\r\n\r\n" + payload[12:] + b"\r\n"
    with Server(program) as server, Client(server) as receiver, Client(server, headers=True) as sender:
        receiver.subscribe(b"large")
        thread = threading.Thread(target=send_in_pieces, args=(sender, frames, chance))
        thread.start()
        want(receiver.message() == (b"large", b"1", b"re", payload), "another first message came")
        want(receiver.message() == (b"large", b"1", None, payload[12:]), "another second message came")
        thread.join()
        sender.ping()
        # (one byte more is refused at the end of its line)
        sender.send(b"PUB large 1048577\r\n")
        want(sender.rest() == TEXTS["payload"], "not refused with its text")
        with Client(server) as other:
            other.send(b"PUB large 1048576\r\n" + payload[:1 << 19])
        is_alive(server)
        receiver.ping()


def send_in_pieces(client, data, chance):
    at = 0
    while at < len(data):
        piece = chance.choice((1, 2, 3, 100, 1000, 4096, 4097, 65536, 200_000))
        client.send(data[at:at + piece])
        at += piece


def never_reads_answers(program, divide):
    """Who sends PINGs and reads no answer is read no further, and others are served"""
    with Server(program) as server, Client(server, receive=4096) as deaf:
        deaf.socket.setblocking(False)
        pings, sent, last = b"PING\r\n" * 10_000, 0, time.monotonic()
        # (until its socket has taken nothing for two seconds, or 64 MiB)
        while time.monotonic() < last + 2 and sent < 1 << 26:
            try:
                sent += deaf.socket.send(pings[sent % 6:])
                last = time.monotonic()
            except BlockingIOError:
                time.sleep(0.05)
            except (BrokenPipeError, ConnectionResetError):
                break
        memory = server.kilobytes()
        is_alive(server)
        want(sent < 1 << 26, f"{sent} bytes were read of it")
    return f"{sent} bytes, the server has {memory // 1024} MiB"


def ping_with_messages(self):
    """Sends a PING and reads messages up to its PONG."""
    self.send(b"PING\r\n")
    while True:
        line = self.line()
        if line == b"PONG":
            return
        want(line.startswith(b"MSG here "), f"came {line!r}")
        self.take(int(line.split()[-1]) + 2)


Client.ping_with_messages = ping_with_messages

if __name__ == "__main__":
    run(__doc__, closes, half_closes, cuts, sends_nothing, byte_a_second, large_payload, never_reads_answers)

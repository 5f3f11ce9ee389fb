#!/usr/bin/env python3
"""In what order a client is sent its answers, its messages, and the text that closes it."""

from clients import TEXTS, Client, Server, client_on, run, shown, storm, want
from storming import numbered

SIZE = 16
COUNT = 300


def messages(subject, count):
    return b"".join(b"MSG %b 1 16\r\n%016d\r\n" % (subject, it) for it in range(count))


@storm(1, 2)
def wrong_line(program, divide, workers):
    """PING and a wrong line in one piece, after messages for the same client: MSG, PONG, -ERR, and none is lost"""
    rounds = 30
    with Server(program, "--workers", workers) as server:
        publisher = Client(server)
        for turn in range(rounds):
            client = client_on(server, turn % workers, workers)
            client.subscribe(b"mine")
            # (of another client, accepted before the piece is sent, or of the piece itself)
            own = turn % 2 == 0
            if not own:
                publisher.send(numbered(b"mine", range(COUNT)))
                publisher.ping()
            client.send((numbered(b"mine", range(COUNT)) if own else b"") + b"PING\r\nWRONG\r\n")
            got, wanted = client.rest(), messages(b"mine", COUNT) + b"PONG\r\n" + TEXTS["unknown"]
            kind = "its own" if own else "of another"
            want(got == wanted, f"{kind}: wanted {len(wanted)} bytes, and came {shown(got)}")
            client.close()
    return f"{rounds} times"


PIECE = Client.connecting(verbose=True) + b"SUB mine 1\r\nPUB mine 2\r\nhi\r\nPING\r\n"
ANSWERS = b"+OK\r\n+OK\r\n+OK\r\nMSG mine 1 2\r\nhi\r\nPONG\r\n"


@storm(1, 2)
def verbose(program, divide, workers):
    """CONNECT, SUB, PUB and PING in each cut of one piece: +OK three times, its message, PONG"""
    with Server(program, "--workers", workers) as server:
        for cut in range(len(PIECE)):
            with Client(server, connect=False) as client:
                client.send(PIECE[:cut])
                if cut % 2:
                    # (the first part is read alone)
                    early = client.take(ANSWERS.find(b"+OK", 1) if cut >= PIECE.find(b"SUB") else 0)
                else:
                    early = b""
                client.send(PIECE[cut:])
                got = early + client.take(len(ANSWERS) - len(early))
                want(got == ANSWERS, f"cut after {cut} bytes: {shown(got)}")
    return f"{len(PIECE)} cuts"


@storm(1, 2)
def many_verbose(program, divide, workers):
    """1,000 messages of a verbose client to itself in one piece, each 50 with a PING: none after its PONG"""
    with Server(program, "--workers", workers) as server:
        client = Client(server, verbose=True)
        client.send(b"SUB mine 1\r\n")
        client.line(b"+OK")
        client.send(b"".join(numbered(b"mine", [it]) + (b"PING\r\n" if it % 50 == 49 else b"") for it in range(1_000)))
        accepted = came = pongs = 0
        while pongs < 20:
            line = client.line()
            if line == b"+OK":
                accepted += 1
            elif line == b"PONG":
                pongs += 1
                want(accepted == came == 50 * pongs, f"PONG {pongs} comes after {accepted} +OK and {came} messages")
            else:
                want(line == b"MSG mine 1 16" and client.take(SIZE + 2) == b"%016d\r\n" % came, f"came {line!r}")
                came += 1
                want(came <= accepted, f"message {came} comes before its +OK")


if __name__ == "__main__":
    run(__doc__, wrong_line, verbose, many_verbose)

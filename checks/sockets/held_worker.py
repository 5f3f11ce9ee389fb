#!/usr/bin/env python3
"""A worker that is held between reading a PUB and entering it, while another worker serves.

The program `test_held` holds its first worker there until its second worker has answered a CONNECT and a PUB. The hub's lock
is free meanwhile.
"""

import pathlib
import select

from clients import Client, Failed, Server, run, want

HELD = pathlib.Path(__file__).resolve().parent.parent.parent / "out" / "unproved" / "test_held"
TURNS = 1_000_000
SECONDS = 0.3
PUB = b"PUB here 2\r\nhi\r\n"


class Held(Server):
    """The program `test_held`, in the place of the one that is checked. It looks so many times at most."""

    def __init__(self, program, turns, **more):
        if not HELD.exists():
            raise Failed(f"there is no {HELD}: 'tools/build_optimized test_held out/unproved/test_held' builds it")
        super().__init__(HELD, turns, **more)

    def command(self, program, listen, words):
        return [program, *words]


def clients_of(server):
    """Returns a client on each worker, both answered +OK to their CONNECT."""
    first, second = Client(server, verbose=True), Client(server, verbose=True)
    want((first.number, second.number) == (1, 2), f"the clients are {first.number} and {second.number}")
    return first, second


def is_silent(client, seconds):
    """Whether nothing comes for so long."""
    return not client.got and not select.select([client.socket], [], [], seconds)[0]


def until_another_publishes(program, divide):
    """Held, its client is sent nothing; the other worker's PUB is answered meanwhile, and then its own"""
    with Held(program, TURNS) as server:
        first, second = clients_of(server)
        with first, second:
            first.send(PUB)
            want(is_silent(first, SECONDS), "the client of the held worker was sent something")
            want(is_silent(second, 0), "the other client was sent something")
            second.send(PUB)
            want(second.line() == b"+OK", "the other worker's PUB was answered otherwise")
            want(first.line() == b"+OK", "the held worker's PUB was answered otherwise")
            server.end_input()
            want(server.line() == "stopped", f"printed {server.lines}")
            want(server.status() == 0, f"status {server.status()}")


def until_turns_are_spent(program, divide):
    """Held for longer than its turns: the server ends with turns spent, status 1"""
    with Held(program, 50) as server:
        first, second = clients_of(server)
        with first, second:
            first.send(PUB)
            first.rest()
            second.rest()
            server.end_input()
            want(server.line() == "turns spent", f"printed {server.lines}")
            want(server.status() == 1, f"status {server.status()}")


if __name__ == "__main__":
    run(__doc__.split("\n")[0], until_another_publishes, until_turns_are_spent)

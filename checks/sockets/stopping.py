#!/usr/bin/env python3
"""How signals end the server: at once on a host and under the init of a container, and not where it is a container's first
process. Where no namespace of processes can be made, or there is no tini and it can't be installed, the check of containers is
skipped."""

import contextlib
import os
import pathlib
import signal
import subprocess

from clients import Client, Server, is_alive, run, wait_for, want
from hosting import lacks, skip_check_if

# Each signal that systemd, a terminal or an operator of nats-server sends.
ENDING = (signal.SIGTERM, signal.SIGINT, signal.SIGHUP, signal.SIGUSR1, signal.SIGUSR2)
# How long an end at once may take.
SOON = 5
NAMESPACE = ["unshare", "--pid", "--fork", "--kill-child"]


class Contained(Server):
    """A server in a namespace of processes of its own, as in a container."""

    # What stands before it in that namespace: an init, or nothing.
    before = []

    def command(self, program, listen, words):
        return [*NAMESPACE, *self.before, *super().command(program, listen, words)]

    def first_process(self):
        """Returns the number of the container's first process."""
        number = self.process.pid
        return int(pathlib.Path(f"/proc/{number}/task/{number}/children").read_text())


class UnderInit(Contained):
    before = ["tini", "--"]


def has_ended(server, limit=SOON):
    with contextlib.suppress(subprocess.TimeoutExpired):
        return server.process.wait(limit) is not None
    return False


def at_once(program, divide):
    """SIGTERM, SIGINT, SIGHUP, SIGUSR1 and SIGUSR2 each end it at once, and it prints nothing more"""
    for it in ENDING:
        with Server(program, file=True) as server, Client(server) as one:
            server.process.send_signal(it)
            want(has_ended(server), f"it hasn't ended by {it.name}")
            want(server.status() == -it, f"{it.name}: its status is {server.status()}")
            want(one.rest() == b"", "its client is sent something")
            wait_for(lambda: server.is_at_end, "the end of what it prints", SOON)
            want(len(server.lines) == 1, f"{it.name}: it printed {server.lines}")
    return f"{len(ENDING)} signals"


def lacks_containers():
    """Returns why there are no containers here, or nothing."""
    ran = subprocess.run([*NAMESPACE, "true"], capture_output=True, text=True)
    return ran.stderr.strip() if ran.returncode else lacks("tini", "tini")


def contained(program, divide):
    """As a container's first process it stays at SIGTERM, and under an init it ends at once with status 143"""
    skip_check_if(lacks_containers())
    with Contained(program, file=True) as server:
        os.kill(server.first_process(), signal.SIGTERM)
        want(not has_ended(server, 2), f"it has ended with {server.process.returncode}")
        is_alive(server)
    with UnderInit(program, file=True) as server, Client(server) as one:
        os.kill(server.first_process(), signal.SIGTERM)
        want(has_ended(server), "it hasn't ended")
        want(server.status() == 128 + signal.SIGTERM, f"its status is {server.status()}")
        want(one.rest() == b"", "its client is sent something")
    return "with an init and without"


if __name__ == "__main__":
    run(__doc__, at_once, contained)

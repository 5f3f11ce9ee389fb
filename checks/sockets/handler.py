#!/usr/bin/env python3
"""The program of docs/FROM_NATS_SERVER.md, "An error that ends a client", over nats.go: it connects again after 'Slow Consumer'.
Where there is no Go or nats.go and it can't be installed, a line says so and nothing is counted."""

import pathlib
import re
import signal
import subprocess
import tempfile
import time

from clients import Client, Server, run, wait_for, want
from hosting import lacks_nats_go, over_nats_go, skip_if

PAGE = pathlib.Path(__file__).resolve().parents[2] / "docs" / "FROM_NATS_SERVER.md"
PROGRAM = """package main

import (
    "fmt"
    "log"
    "os"
    "time"

    "github.com/nats-io/nats.go"
)

%s
func main() {
    dial(os.Args[1], func(nc *nats.Conn) {
        for _, subject := range []string{"flood", "after"} {
            nc.Subscribe(subject, func(m *nats.Msg) { fmt.Println(m.Subject) })
        }
        nc.Flush()
        fmt.Println("connected")
    })
    select {}
}
"""
SIZE = 1000
SOON = 20


def handler():
    """Returns the code of the page, without its indent."""
    found = re.search(r"^ {4}func dial\(.*?(?=^\S)", PAGE.read_text(), re.M | re.S)
    want(found, "the page has no function dial")
    return re.sub(r"^ {4}", "", found[0], flags=re.M)


def again(program, divide):
    """A client that stands still for some seconds is closed, connects again by itself, and gets what comes then"""
    with Server(program) as server, tempfile.TemporaryDirectory() as room:
        line = [over_nats_go(PROGRAM % handler(), room), "nats://demo:demo@%s:%d" % server.address]
        path = pathlib.Path(room) / "said"
        with open(path, "w") as said, subprocess.Popen(line, stdout=said) as it:
            try:
                wait_for(lambda: path.read_text() == "connected\n", "it is connected", SOON)
                it.send_signal(signal.SIGSTOP)
                publisher = Client(server)
                for _ in range(200):
                    publisher.send(b"PUB flood %d\r\n%b\r\n" % (SIZE, b"x" * SIZE) * 100)
                publisher.ping()
                time.sleep(1)
                it.send_signal(signal.SIGCONT)
                wait_for(lambda: path.read_text().count("connected\n") == 2, "it connects again", SOON)
                publisher.send(b"PUB after 2\r\nhi\r\n")
                wait_for(lambda: path.read_text().endswith("after\n"), "it gets what comes then", SOON)
            finally:
                it.kill()
        missed = 20_000 - path.read_text().count("flood\n")
        want(missed > 0, "it was fast enough")
    return f"it has missed {missed} messages of 20,000"


if __name__ == "__main__":
    skip_if(lacks_nats_go())
    run(__doc__, again)

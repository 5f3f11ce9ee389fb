"""What the checks under reloads share: policies that come into force one after another, and writers whose messages tell which
was in force.

How that is decided without a look into the server. Policy number n is the only one that lets a writer publish on
`mark.n`. A writer sends in one piece, with answers wanted (verbose): a message on `mark.n`, some on subjects of the
check, and again one on `mark.n`. A connection's frames are answered in their order. So where both marks were accepted, the
policy at those between them was number n, whenever that was, and they are decided. What isn't decided is not judged.

A policy stays in force for EACH seconds, and every twentieth and the one behind it until as many turns were decided as
there are writers.
"""

import threading
import time

from clients import LIMIT, Client, want, wait_for
from storming import Working

ROUNDS = 1_000
EACH = 0.01


class Reloading(Working):
    """A server's policies by their numbers, and what is known so far of its traffic, by all threads."""

    def __init__(self, server, policy, writers):
        super().__init__()
        self.server, self.policy, self.writers, self.number = server, policy, writers, 2
        # how many turns were decided, under even policies and under odd ones
        self.lock, self.decided = threading.Lock(), [0, 0]
        server.frame(policy(2))
        want(server.line() == "epoch 2", f"printed {server.lines}")

    def begin_readers(self, read, each):
        """Runs a reader for each of these words. Returns once all have subscribed, each of which releases the semaphore."""
        ready = threading.Semaphore(0)
        readers = [self.begin(read, self, *words, ready) for words in each]
        for _ in readers:
            want(ready.acquire(timeout=LIMIT), f"a reader doesn't come to its subscription: {self.faults}")
        return readers

    def write(self, name, between, note):
        """A writer's turns, until all are to stop. `note` is given what each has shown: the policy's number, the subjects, texts
        and answers of the messages, and whether the policy decides them."""
        client = Client(self.server, user="writer", connect=False)
        client.send(Client.connecting("writer", verbose=True))
        client.line(b"+OK")
        turn = 0
        while not self.stop.is_set():
            number, turn = self.number, turn + 1
            mark = b"mark.%d" % number
            subjects = [mark, *between, mark]
            texts = [b"%d.%d.%d" % (name, turn, it) for it in range(len(subjects))]
            client.send(b"".join(b"PUB %b %d\r\n%b\r\n" % (to, len(text), text) for to, text in zip(subjects, texts)))
            answers = [client.line() for _ in texts]
            is_decided = answers[0] == answers[-1] == b"+OK"
            with self.lock:
                note(number, subjects, texts, answers, is_decided)
                self.decided[number % 2] += is_decided
            time.sleep(0.02)
        client.ping()
        client.close()

    def reload(self, rounds, heard):
        """Has each policy come into force, the last an even one, and then all stop. `heard` is given each line that isn't of an
        epoch."""
        for number in range(3, rounds + 3):
            begin = time.monotonic()
            self.server.frame(self.policy(number))
            while (line := self.server.line()) != f"epoch {number}":
                heard(line)
            self.number = number
            if self.stop.is_set():
                break
            time.sleep(max(0.0, EACH - (time.monotonic() - begin)))
            # (on a slow machine few turns fall between two reloads, so some policies stay until enough has)
            if number % 20 < 2:
                enough = self.decided[number % 2] + self.writers
                wait_for(lambda: self.decided[number % 2] >= enough or self.stop.is_set(),
                         f"too little is decided under policy {number}: {self.decided}")
        self.stop.set()

    def want_decided(self):
        """Shows that enough was decided."""
        want(min(self.decided) > self.writers, f"too little was decided: {self.decided}")


def rounds_of(divide):
    """Returns how many policies come into force: an even number."""
    return max(ROUNDS // divide, 40) // 2 * 2

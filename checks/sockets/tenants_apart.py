#!/usr/bin/env python3
"""Two accounts that exchange nothing with others are sent the same bytes by a server of their own, and beside two tenants
who storm.

The two are SHOP and PRICES. They publish, to queue groups too, request and respond, by grants, and have limits: one step
after another, each over once its PING is answered. Meanwhile the others use the same subjects, queue names and replies, come
and go, and get a new policy about twice a second, by its watched file, which changes what is theirs alone. What each client
of the two was sent is then compared, but for the number of its connection and the random word of a response subject.
"""

import contextlib
import re
import threading
import time

from clients import LIMIT, Client, Failed, Server, client_on, run, shown, storm, wait_for, want

ROUNDS = 60
RELOADS = 6
NUMBER = re.compile(rb'"client_id":[0-9]+')
WORD = re.compile(rb"_R_\.[0-9a-f]{16}\.")
GROUP = ("pair0", "pair1")


def user(name, **permissions):
    return {"user": name, "password": name, **({"permissions": permissions} if permissions else {})}


# What the two have in each policy.
SET = {
    "PRICES": {
        "users": [user("prices", subscribe=["price.*", "news"], publish=["news"], allow_responses={"max": 2}), user("audit")],
        "exports": [{"service": "price.*"}, {"stream": "news"}],
    },
    "SHOP": {
        "users": [user("shop", publish={"deny": "work.secret"}), user("worker"), user("watch")],
        "imports": [{"service": {"account": "PRICES", "subject": "price.*"}, "to": "ask.*"},
                    {"stream": {"account": "PRICES", "subject": "news"}}],
    },
}


def policy(number):
    """Returns policy `number`: the part of the two, and what the others have under that number."""
    odd = number % 2
    others = {
        "AHEAD": {
            "users": [user("demo"), user("ahead"), *[user("guest")] * odd],
            "exports": [{"stream": "work.*"}] * odd + [{"service": "price.*", "response_ttl": f"{1 + number % 7}s"}],
        },
        "ZOO": {
            "users": [user("zoo", subscribe={"deny": ["work.*"] if odd else []}, publish=["ask.*", "work.*"],
                           allow_responses={"max": 1 + number % 3})],
            "imports": [{"stream": {"account": "AHEAD", "subject": "work.*"}, "prefix": f"of{number}"}] * odd
            + [{"service": {"account": "AHEAD", "subject": "price.*"}, "to": "ask.*"}],
        },
    }
    return {"accounts": {**SET, **others}}


def do(client, frames):
    """Sends frames and a PING, and reads until that is answered."""
    client.send(frames + b"PING\r\n")
    while b"PONG\r\n" not in client.got:
        want(client.more(), f"closed after {shown(client.got)}")
    client.got.clear()


class Member(Client):
    """A client of the two that keeps all that it is sent."""

    def __init__(self, server, user, **options):
        self.heard = bytearray()
        super().__init__(server, user=user, **options)

    def more(self):
        before = len(self.got)
        came = super().more()
        self.heard += self.got[before:]
        return came

    def seen(self):
        """Returns what it was sent, without numbers of connections and words."""
        return WORD.sub(b"_R_.word.", NUMBER.sub(b'"client_id":0', bytes(self.heard)))


def enter(server):
    """Returns the clients of the two by name, which are on all workers in turn."""
    users = {"plain": "worker", "alone": "worker", **dict.fromkeys(GROUP, "worker"), "limited": "worker", "watch": "watch",
             "shop": "shop", "prices": "prices", "audit": "audit"}
    members = {name: Member(server, its, verbose=name == "shop") for name, its in users.items()}
    wishes = {"plain": b"SUB work.* 1\r\n", "alone": b"SUB work.> g 1\r\n", **dict.fromkeys(GROUP, b"SUB work.* pair 1\r\n"),
              "watch": b"SUB > 1\r\n", "audit": b"SUB > 1\r\n", "shop": b"SUB inbox.* 1\r\n", "prices": b"SUB price.* q 1\r\n"}
    for name, frames in wishes.items():
        do(members[name], frames)
    return members


def play(members, rounds, between):
    """What the two do, with `between` called in the middle of a round, while requests are out."""
    shop, prices = members["shop"], members["prices"]
    for turn in range(rounds):
        # (a limit that is reached in this round and the next)
        do(members["limited"], b"SUB work.* %d\r\nUNSUB %d 30\r\n" % (turn, turn))
        do(shop, b"".join(b"PUB work.%d re.%d 6\r\n%06d\r\n" % (it, it, turn) for it in range(20)))
        do(shop, b"PUB work.secret 2\r\nno\r\n")
        do(shop, b"".join(b"PUB ask.%d inbox.%d 1\r\n?\r\n" % (it, it) for it in range(4)))
        # (a response to each, a second one that is too late, and a third that no grant allows)
        routes = [prices.message()[2] for _ in range(4)]
        between(turn)
        for route in routes:
            do(prices, 3 * (b"PUB %b 2\r\nok\r\n" % route))
        do(prices, b"PUB news 4\r\nnews\r\nPUB re.1 2\r\nno\r\n")
        for it in members.values():
            do(it, b"")


def transcript(members):
    """Returns what each saw up to now, by name; of the group whose members chance chooses from, the lines of both, sorted."""
    for it in members.values():
        do(it, b"")
    seen = {name: it.seen() for name, it in members.items() if name not in GROUP}
    parts = b"".join(members[name].seen() for name in GROUP)
    return {**seen, "pair": b"".join(sorted(re.findall(rb"[^\r]*\r\n", parts)))}


class Storm:
    """What the two others do, each in threads of its own, until it is stopped."""

    def __init__(self, server, workers):
        self.server, self.stop, self.faults, self.number = server, threading.Event(), [], 1
        self.counts = dict.fromkeys(("published", "answered", "guests"), 0)
        publishers = [client_on(server, it % workers, workers, user=its) for it, its in enumerate(("ahead", "zoo"))]
        works = [(self.publish, it) for it in publishers] + [(self.request,), (self.come_and_go,), (self.reload,)]
        self.threads = [threading.Thread(target=self.guarded, args=it, daemon=True) for it in works]
        for it in self.threads:
            it.start()

    def guarded(self, work, *words):
        try:
            while not self.stop.is_set():
                work(*words)
        except Exception as error:
            self.faults.append(error)
            self.stop.set()

    def publish(self, client):
        """A piece of messages that it hears itself, plain and as a member of groups that the two have too."""
        # (what a reload has removed is there again)
        do(client, b"SUB work.* 1\r\nSUB work.* g 2\r\nSUB work.* pair 3\r\nSUB inbox.* 4\r\n")
        do(client, b"".join(b"PUB work.%d re.%d 5\r\nstorm\r\n" % (it % 20, it % 20) for it in range(100)))
        do(client, 2 * b"PUB re.1 5\r\nstorm\r\n")
        self.counts["published"] += 100

    def request(self):
        """Requests across the others' own import, each answered, maybe too late."""
        with Client(self.server, user="zoo") as asking, Client(self.server, user="ahead") as answering:
            asking.subscribe(b"inbox.*")
            answering.subscribe(b"price.* q")
            for turn in range(50):
                asking.send(b"PUB ask.%d inbox.%d 5\r\nstorm\r\n" % (turn % 4, turn % 4))
                route = answering.message()[2]
                answering.send(2 * (b"PUB %b 5\r\nstorm\r\n" % route))
                answering.ping()
                self.counts["answered"] += 1

    def come_and_go(self):
        """A guest that some policies don't have: it is refused, or hears all for a while, and goes or is closed."""
        with Client(self.server, user="guest", connect=False) as guest, contextlib.suppress(Failed, OSError):
            guest.send(Client.connecting("guest"))
            do(guest, b"SUB > 1\r\nSUB work.* pair 2\r\n")
            self.counts["guests"] += 1
            for sid in range(3, 50):
                do(guest, b"SUB work.> %d\r\nUNSUB %d 3\r\nPUB work.1 re.1 5\r\nstorm\r\n" % (sid, sid))
                time.sleep(0.01)
        time.sleep(0.01)

    def reload(self):
        self.server.write(policy(self.number + 1))
        wait_for(lambda: f"epoch {self.number + 1}" in self.server.lines or self.stop.is_set(), "a reload")
        self.number += not self.stop.is_set()

    def wait_for_reload(self):
        before = self.number
        wait_for(lambda: self.number > before or self.stop.is_set(), "a reload in the middle of a round")

    def end(self):
        self.stop.set()
        for it in self.threads:
            it.join(LIMIT)
        want(not self.faults, f"the storm failed: {self.faults[:1]!r}")
        want(not any(it.is_alive() for it in self.threads), "the storm hangs")
        want(all(self.counts.values()), f"the storm did too little: {self.counts}")


def beside(program, workers, rounds):
    """Returns what the two are sent beside the storm, and what that did."""
    with Server(program, "--workers", workers, policy=policy(1), file=True) as server:
        members = enter(server)
        storming = Storm(server, workers)
        play(members, rounds, lambda turn: turn % (rounds // RELOADS) or storming.wait_for_reload())
        storming.end()
        seen = transcript(members)
        told = [it.split() for it in server.lines if it.startswith(("gone ", "removed "))]
        own = {str(it.number) for it in members.values()}
        want(not any(it[1] in own for it in told), f"a reload of the others ended what is theirs: {told}")
        want({it[0] for it in told} == {"gone", "removed"}, f"the reloads ended too little: {told[:5]}")
        return seen, f"{storming.number - 1} reloads, {storming.counts}"


def alone(program, workers, rounds):
    """Returns what the two are sent by a server of their own."""
    with Server(program, "--workers", workers, policy={"accounts": SET}) as server:
        members = enter(server)
        play(members, rounds, lambda turn: None)
        return transcript(members)


@storm(1, 2, 4)
def unseen(program, divide, workers):
    """Beside two tenants who storm, two accounts are sent what a server of their own sends them"""
    rounds = max(ROUNDS // divide, RELOADS)
    own = alone(program, workers, rounds)
    found, did = beside(program, workers, rounds)
    for name, wanted in own.items():
        got = found[name]
        at = next((it for it, (one, other) in enumerate(zip(wanted, got)) if one != other), min(len(wanted), len(got)))
        want(got == wanted, f"{name} was sent {shown(got[at:])} at {at}, and alone {shown(wanted[at:])}")
    return f"{sum(map(len, own.values()))} bytes, {did}"


if __name__ == "__main__":
    run(__doc__, unseen)

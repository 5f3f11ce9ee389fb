#!/usr/bin/env python3
"""Services between accounts over sockets: who sees a request and its response, and that reloads which keep an import lose and
double none of them.

Account PRICES offers `price.*`; SHOP asks for it on `ask.*`, with replies below `inbox`. A policy's number says at which of
its indexes SHOP's import stands, and which other exports and imports are there: each reload moves the rows, and keeps this one.
"""

import re
import threading
import time

from clients import LIMIT, Client, Server, is_alive, run, shown, storm, want

ROUTE = re.compile(rb"_R_\.[0-9a-f]{16}\.([1-9][0-9]*)")
WINDOW = 1_000
REQUESTS = 20_000
EACH = 0.01


def policy(number=0):
    """Returns policy `number`."""
    moved = [{"service": {"account": "PRICES", "subject": "other.*"}, "to": f"other{it}.*"} for it in range(number % 4)]
    used = {"service": {"account": "PRICES", "subject": "price.*"}, "to": "ask.*"}
    exports = [{"stream": "news"}] * (number % 3) + [{"service": "other.*"}, {"service": "price.*"}]
    named = {name: {"user": name, "password": name} for name in ("demo", "prices", "watch", "shop", "witness", "stranger")}
    return {"accounts": {
        "PRICES": {"users": [named["prices"], named["watch"]], "exports": exports},
        "SHOP": {"users": [named["shop"], named["witness"]], "imports": [*moved, used]},
        "STRANGE": {"users": [named["demo"], named["stranger"]]},
    }}


@storm(1, 2)
def views(program, divide, workers):
    """A request and its response are seen in two accounts, in each under names of its own, and by nobody else"""
    rounds = 200
    with Server(program, "--workers", workers, policy=policy()) as server:
        prices, watch, shop, witness, stranger = everyone = [
            Client(server, user=it) for it in ("prices", "watch", "shop", "witness", "stranger")]
        for client, subject in zip(everyone, (b"price.*", b">", b"inbox.*", b">", b">")):
            client.subscribe(subject)
        for number in range(1, rounds + 1):
            text, inbox = b"tea%d" % number, b"inbox.%d" % number
            shop.send(b"PUB ask.tea %b %d\r\n%b\r\n" % (inbox, len(text), text))
            asked, watched, own = prices.message(), watch.message(), witness.message()
            found = ROUTE.fullmatch(asked[2] or b"")
            want(found and int(found[1]) == number, f"request {number} came with the reply {asked[2]!r}")
            want(asked == (b"price.tea", b"1", found[0], text) and watched == asked, f"came {asked}, and to another {watched}")
            want(own == (b"ask.tea", b"1", inbox, text), f"in the requester's account came {own}")
            # (with a reply, which goes to the exporter's own account alone)
            prices.send(b"PUB %b more %d\r\n%b\r\n" % (found[0], len(text), text))
            answered, seen, heard = shop.message(), watch.message(), witness.message()
            want(answered == (inbox, b"1", None, text) and heard == answered, f"the response came as {answered}, {heard}")
            want(seen == (found[0], b"1", b"more", text), f"in the exporter's account came {seen}")
        for client in everyone:
            client.ping()
        is_alive(server)
    return f"{rounds} requests"


class Asking:
    """A requester that keeps WINDOW requests in flight, and what it was answered."""

    def __init__(self, server, requests):
        self.client, self.requests = Client(server, user="shop"), requests
        self.client.subscribe(b"inbox.*")
        self.sent, self.answered, self.faults = 0, set(), []
        self.thread = threading.Thread(target=self.guarded, daemon=True)

    def guarded(self):
        try:
            self.ask(min(WINDOW, self.requests))
            while len(self.answered) < self.requests:
                subject, _, reply, text = self.client.message()
                want(subject == b"inbox.%b" % text and reply is None, f"answered {text!r} on {subject!r} with {reply!r}")
                want(text not in self.answered, f"request {text!r} was answered twice")
                self.answered.add(text)
                if self.sent < self.requests:
                    self.ask(1)
            self.client.ping()
        except Exception as error:
            self.faults.append(error)

    def ask(self, many):
        numbers = range(self.sent, self.sent + many)
        self.client.send(b"".join(b"PUB ask.%d inbox.%d %d\r\n%d\r\n" % (it, it, len(b"%d" % it), it) for it in numbers))
        self.sent += many


class Answering:
    """A responder that lets WINDOW requests come together before it answers the oldest, and what it was asked."""

    def __init__(self, server, requests):
        self.client, self.requests = Client(server, user="prices"), requests
        self.client.subscribe(b"price.*")
        self.waiting, self.asked, self.faults, self.most = [], 0, [], 0
        self.thread = threading.Thread(target=self.guarded, daemon=True)

    def guarded(self):
        try:
            while self.asked < self.requests or self.waiting:
                while self.asked < self.requests and len(self.waiting) < WINDOW:
                    subject, _, reply, text = self.client.message()
                    want(subject == b"price.%b" % text and ROUTE.fullmatch(reply or b""), f"asked {subject!r} with {reply!r}")
                    self.waiting.append((reply, text))
                    self.asked += 1
                self.most = max(self.most, len(self.waiting))
                # (a part at a time, so that the others are in flight at the next reload)
                part, self.waiting = self.waiting[:100], self.waiting[100:]
                self.client.send(b"".join(b"PUB %b %d\r\n%b\r\n" % (reply, len(text), text) for reply, text in part))
                time.sleep(0.002)
            self.client.ping()
        except Exception as error:
            self.faults.append(error)


@storm(1, 2)
def in_flight(program, divide, workers):
    """1,000 requests in flight through reloads that keep the import: every response comes once, and to its requester"""
    requests = max(REQUESTS // divide, 2 * WINDOW)
    with Server(program, "--workers", workers, "--outbox", 4 * WINDOW, policy=policy()) as server:
        asking, answering = Asking(server, requests), Answering(server, requests)
        answering.thread.start()
        asking.thread.start()
        number, end = 1, time.monotonic() + 10 * LIMIT
        while asking.thread.is_alive() and not answering.faults:
            want(time.monotonic() < end, f"{len(asking.answered)} of {requests} were answered")
            number += 1
            server.frame(policy(number))
            want((line := server.line()) == f"epoch {number}", f"a reload printed {line!r}")
            asking.thread.join(EACH)
        answering.thread.join(LIMIT)
        faults = answering.faults + asking.faults
        want(not faults, f"{faults[:1]}")
        want(not answering.thread.is_alive(), "the responder hangs")
        want(len(asking.answered) == requests, f"{len(asking.answered)} of {requests} were answered")
        want(answering.most == WINDOW, f"at most {answering.most} requests were in flight")
        want(number > 10, f"{number} reloads are too few to say anything")
        is_alive(server)
    return f"{requests} requests, {number} policies"


@storm(1, 2)
def taken_away(program, divide, workers):
    """A reload without the import ends what is in flight: late responses are accepted, and none comes to anybody"""
    with Server(program, "--workers", workers, policy=policy()) as server:
        prices, shop = Client(server, user="prices"), Client(server, user="shop")
        prices.subscribe(b"price.*")
        shop.subscribe(b">")
        shop.send(b"".join(b"PUB ask.%d inbox.%d 0\r\n\r\n" % (it, it) for it in range(100)))
        routes = [prices.message()[2] for _ in range(100)]
        want([shop.message()[0] for _ in range(100)] == [b"ask.%d" % it for it in range(100)], "its own requests lack")
        prices.send(b"PUB %b 2\r\nok\r\n" % routes[7])
        want(shop.message() == (b"inbox.7", b"1", None, b"ok"), "another message came")
        without = policy()
        del without["accounts"]["SHOP"]["imports"]
        for epoch, it in ((2, without), (3, policy())):
            server.frame(it)
            want((line := server.line()) == f"epoch {epoch}", f"a reload printed {line!r}")
            prices.send(b"".join(b"PUB %b 2\r\nno\r\n" % route for route in routes))
            prices.ping()
            shop.ping()
        # (with the import back a new request is answered, under the next number)
        shop.send(b"PUB ask.last inbox.last 0\r\n\r\n")
        want(shop.message()[0] == b"ask.last", "its own request lacks")
        reply = prices.message()[2]
        want(ROUTE.fullmatch(reply)[1] == b"101", f"the next reply is {shown(reply)}")
        prices.send(b"PUB %b 2\r\nok\r\n" % reply)
        want(shop.message() == (b"inbox.last", b"1", None, b"ok"), "another message came")
        is_alive(server)


if __name__ == "__main__":
    run(__doc__, views, in_flight, taken_away)

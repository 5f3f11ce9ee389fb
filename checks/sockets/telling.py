#!/usr/bin/env python3
"""What the server tells its operator on standard error: a line of JSON for each thing, with its fields, no more than so
many a second, and never at the cost of who is served."""

import contextlib
import json
import os
import pathlib
import resource
import shutil
import subprocess
import tempfile
import threading
import time

from clients import LIMIT, TEXTS, Client, Flood, Server, is_alive, run, wait_for, want

POLICY = {"accounts": {"A": {"users": [
    {"user": "demo", "password": "demo"},
    {"user": "bound", "password": "bound", "permissions": {
        "publish": {"allow": ["foo", "bar.*"], "deny": ["secret.>"]},
        "subscribe": {"allow": ["foo queue.*", "bar"]}}},
    {"user": "guest", "password": "guest"},
]}}}
# How long a line may take to come.
SOON = 10
# How much lines matter that aren't warnings.
LEVELS = {**dict.fromkeys(("started", "connected", "closed", "reloaded", "policy_readable_again"), "info"),
          **dict.fromkeys(("failed", "no_descriptors"), "error")}
TEXTS_OF_ERRORS = "connections", "Maximum Connections Exceeded"


def level_of(line):
    return "error" if line.get("text") in TEXTS_OF_ERRORS else LEVELS.get(line["event"], "warning")


def told(server, start=False):
    """Returns the lines that were written so far; the first, of the start, only if that is asked for."""
    with open(server.errors.name, "rb") as it:
        text = it.read()
    lines = [json.loads(it) for it in text[:text.rfind(b"\n") + 1].splitlines()]
    for it in lines:
        want(it["level"] == level_of(it), f"the level of {it}")
    return [it for it in lines if start or it["event"] != "started"]


def line_of(server, event, **fields):
    """Waits for a line of this event with these fields, and returns it."""
    found = []

    def is_there():
        lines = told(server, start=event == "started")
        found[:] = [it for it in lines if it["event"] == event and fields.items() <= it.items()]
        return found

    wait_for(is_there, f"a line {event} with {fields}; there are {told(server)[-5:]}", SOON)
    return found[0]


def exactly(line, **fields):
    """Shows that a line has these fields and no others, beside its moment and level."""
    want(abs(line["at"] / 1000 - time.time()) < LIMIT, f"the moment of {line} isn't now")
    want({**line, "at": 0} == {"at": 0, "level": level_of(line), **fields}, f"{line}, and not {fields}")


def party_of(client, user=None):
    """Returns what a line says of a client."""
    host, port = client.socket.getsockname()
    names = {"user": user, "account": "A"} if user else {}
    return {"conn": client.number, "peer": f"{host}:{port}", **names}


def refusals(program, divide):
    """A wrong password, and what a user's permissions deny"""
    with Server(program, policy=POLICY) as server:
        with Client(server, connect=False) as one:
            one.send(b'CONNECT {"user":"de\\"mo\\n\\u00e9","pass":"wrong"}\r\n')
            want(one.rest() == TEXTS["authorization"], "another answer came")
            exactly(line_of(server, "auth_failed"), event="auth_failed", **{**party_of(one), "user": 'de"mo\n\u00e9'})
        one = Client(server, user="bound")
        one.send(b"PUB secret.a 0\r\n\r\nPUB other 0\r\n\r\nPUB \xff\x01 0\r\n\r\nSUB foo 1\r\nSUB foo other 2\r\nSUB foo queue.a 3\r\n")
        for _ in range(5):
            one.line(b"-ERR 'Permissions Violation")
        party = {"event": "denied", **party_of(one, "bound")}
        for fields in [
            {"command": "PUB", "subject": "secret.a", "verdict": "denied", "index": 0, "entry": "secret.>"},
            {"command": "PUB", "subject": "other", "verdict": "no allow"},
            {"command": "PUB", "subject": "\ufffd\x01", "verdict": "no allow"},
            {"command": "SUB", "subject": "foo", "verdict": "no allow"},
            {"command": "SUB", "subject": "foo", "queue": "other", "verdict": "no queue allow", "index": 0, "entry": "foo queue.*"},
        ]:
            exactly(line_of(server, **{"event": "denied", **fields}), **party, **fields)
        want(len(told(server)) == 6, f"there are other lines: {told(server)}")
    return "six lines"


def errors(program, divide):
    """Errors that clients are sent, and limits"""
    with Server(program, policy=POLICY) as server:
        for sent, event, text in [
            (b"BLAH\r\n", "protocol_error", "Unknown Protocol Operation"),
            (b"SUB foo 1\r\n", "protocol_error", "Authorization Violation"),
            (b"PUB foo 1048577\r\n", "limit", "Maximum Payload Violation"),
            (b"x" * 5000, "limit", "Maximum Control Line Exceeded"),
        ]:
            with Client(server, connect=False) as one:
                one.send(sent)
                one.rest()
                exactly(line_of(server, event, text=text), event=event, text=text, **party_of(one))
        one = Client(server, user="demo")
        one.send(b"SUB foo..bar 1\r\nPUB foo bar..foo 0\r\n\r\nSUB foo it..q 2\r\n")
        for _ in range(3):
            one.line(b"-ERR 'Invalid Subject'")
        one.send(b"".join(b"SUB it.%d %d\r\n" % (it, it) for it in range(4097)))
        one.line(b"-ERR 'Maximum Subscriptions Exceeded'")
        party = party_of(one, "demo")
        for fields in [
            {"command": "SUB", "subject": "foo..bar"},
            {"command": "PUB", "subject": "foo", "reply": "bar..foo"},
            {"command": "SUB", "subject": "foo", "queue": "it..q"},
        ]:
            fields = {"event": "protocol_error", "text": "Invalid Subject", **fields}
            exactly(line_of(server, **fields), **fields, **party)
        text = "Maximum Subscriptions Exceeded"
        exactly(line_of(server, "limit", text=text), event="limit", text=text, **party)
        want(len(told(server)) == 8, f"there are other lines: {told(server)}")
    return "eight lines"


def no_route(program, divide):
    """A request that its exporter has no response route for is told of its client, and those before aren't"""
    users = [[{"user": it, "password": it}] for it in ("prices", "shop")]
    accounts = {"PRICES": {"users": users[0], "exports": [{"service": "price.*"}]}, "SHOP": {"users": users[1], "imports": [
        {"stream": {"account": "NEWS", "subject": "news"}}, {"service": {"account": "PRICES", "subject": "price.*"}, "to": "ask.$1"}]},
        "NEWS": {"exports": [{"stream": "news"}]}}
    with Server(program, policy={"accounts": accounts}) as server:
        prices, shop = Client(server, user="prices"), Client(server, user="shop")
        prices.subscribe(b"price.*")
        for first in range(0, 65_536, 512):
            shop.send(b"".join(b"PUB ask.%d inbox 0\r\n\r\n" % it for it in range(first, first + 512)))
            for _ in range(512):
                prices.message()
        shop.ping()
        want(told(server) == [], f"there are lines: {told(server)}")
        # (another message after it enters in the same hold of the lock)
        shop.send(b"PUB ask.last inbox 0\r\n\r\nPUB nobody 0\r\n\r\n")
        fields = {"event": "limit", "text": "routes", "subject": "ask.last", "import": 1}
        exactly(line_of(server, **fields), **fields, **{**party_of(shop, "shop"), "account": "SHOP"})
        prices.ping()
        want(len(told(server)) == 1, f"there are other lines: {told(server)}")
    return "one line"


def slow_consumer(program, divide):
    """A client that doesn't read is told of, once"""
    with Server(program, policy=POLICY) as server:
        publisher, reader, sleeper = Client(server), Client(server), Client(server, receive=4096)
        for it in (reader, sleeper):
            it.subscribe(b"flood")
        flood = Flood(max(400_000 // divide, 40_000), size=128)
        flood.run(publisher, [reader])
        exactly(line_of(server, "slow_consumer"), event="slow_consumer", reason="outbox full", **party_of(sleeper, "demo"))
        want(len(told(server)) == 1, f"there are other lines: {told(server)}")
    return "one line"


def limits(program, divide):
    """No more sockets may be open: told as an error, once while somebody waits"""
    with Server(program, "--connections", 2, policy=POLICY) as server:
        clients = [Client(server) for _ in range(2)]
        waits = Client(server, connect=None)
        exactly(line_of(server, "limit"), event="limit", text="connections")
        clients.pop().close()
        waits.line(b"INFO ")
        want(len(told(server)) == 1, f"there are other lines: {told(server)}")
    return "one line"


def slow_reasons(program, divide):
    """Why a slow client is closed: large messages that wait for it, or answers that it doesn't take while it sends"""
    with Server(program, policy=POLICY) as server:
        publisher, sleeper = Client(server), Client(server, receive=4096)
        sleeper.subscribe(b"big")
        publisher.send(b"PUB big 1000000\r\n%b\r\n" % (b"x" * 1_000_000) * 100)
        publisher.ping()
        exactly(line_of(server, "slow_consumer"), event="slow_consumer", reason="too much waits", **party_of(sleeper, "demo"))
        deaf = Client(server, receive=4096)
        deaf.socket.setblocking(False)
        begin = time.monotonic()
        while len(told(server)) < 2 and time.monotonic() < begin + 3 * SOON:
            with contextlib.suppress(BlockingIOError, BrokenPipeError, ConnectionResetError):
                deaf.socket.send(b"PING\r\n" * 10_000)
            time.sleep(0.05)
        line = line_of(server, "slow_consumer", conn=deaf.number)
        exactly(line, event="slow_consumer", reason="reads nothing", **party_of(deaf, "demo"))
        is_alive(server)
    return "two reasons"


def held_reason(program, divide):
    """A publisher that was held, and doesn't take what has come for it meanwhile, is closed with a reason of its own"""
    with Server(program, policy=POLICY) as server:
        held, sleeper, other = Client(server, receive=4096), Client(server, receive=4096), Client(server)
        sleeper.subscribe(b"flood")
        held.subscribe(b"big")
        held.socket.setblocking(False)
        last = time.monotonic()
        # (until it is read no further)
        while time.monotonic() < last + 0.5:
            with contextlib.suppress(BlockingIOError):
                held.socket.send(b"PUB flood 1000\r\n%b\r\n" % (b"x" * 1000) * 50)
                last = time.monotonic()
            time.sleep(0.01)
        other.send(b"PUB big 1000000\r\n%b\r\n" % (b"x" * 1_000_000) * 8)
        other.ping()
        line = line_of(server, "slow_consumer", conn=held.number)
        exactly(line, event="slow_consumer", reason="takes nothing", **party_of(held, "demo"))
        want(sleeper.number == held.number + 1, "it was let go here")
        other.ping()
    return "one line"


def reloads(program, divide):
    """A reload, who is gone by it, and what it removes; a fault; and a file that can't be read"""
    with Server(program, policy=POLICY, file=True) as server:
        guest, bound, other = Client(server, user="guest"), Client(server, user="bound"), Client(server)
        bound.subscribe(b"bar", b"s\"1")
        users = POLICY["accounts"]["A"]["users"]
        rules = {"publish": {"allow": ["foo"]}, "subscribe": {"deny": ["x", "bar"]}}
        new = {"accounts": {"A": {"users": [users[0], {**users[1], "permissions": rules}]}}}
        server.write(new)
        want(guest.rest() == TEXTS["authorization"], "another text came")
        exactly(line_of(server, "reloaded"), event="reloaded", epoch=2, gone=1, removed=1)
        exactly(line_of(server, "gone"), event="gone", **party_of(guest, "guest"))
        exactly(line_of(server, "removed"), event="removed", command="SUB", subject="bar", sid="s\"1", verdict="denied", index=1, entry="bar",
                **party_of(bound, "bound"))
        bound.send(b"PUB bar.x 0\r\n\r\n")
        line_of(server, "denied", subject="bar.x", verdict="no allow")
        server.write("{]")
        want("text" in line_of(server, "policy_refused"), "no fault is told")
        os.rename(server.path, server.path.with_suffix(".away"))
        want(str(server.path) in line_of(server, "policy_unreadable")["text"], "the file isn't named")
        os.rename(server.path.with_suffix(".away"), server.path)
        exactly(line_of(server, "policy_readable_again"), event="policy_readable_again")
        want(len(told(server)) == 7, f"there are other lines: {told(server)}")
        other.ping()
    return "seven lines"


def begins(program, divide):
    """The first line says what the server is, what it was started with, and its limits"""
    limits = {"workers": 3, "connections": 50, "outbox": 70, "history": 1000, "history_bytes": 2_000_000, "keepalive": 0}
    words = [it for name, n in limits.items() if n for it in (f"--{name.replace('_', '-')}", n)]
    words += ["--keepalive", "off"]
    with tempfile.TemporaryDirectory() as room:
        copy = pathlib.Path(shutil.copy(program, room))
        for text, facts in [
            (None, {}),
            ("abc123 proved\n", {"commit": "abc123", "proved": "yes"}),
            ("abc123-dirty unproved\n", {"commit": "abc123-dirty", "proved": "no"}),
            ("abc123\n", {}),
            ("x" * 300 + " proved\n", {}),
        ]:
            if text:
                copy.with_suffix(".build").write_text(text)
            with Server(copy, *words, policy=POLICY, file=True) as server:
                listen = "%s:%d" % server.address
                want(line_of(server, "started") == told(server, start=True)[0], "it isn't the first line")
                told_of = {"version": "0.1.0", "listen": listen, "policy": str(server.path), **facts, **limits}
                exactly(line_of(server, "started"), event="started", **told_of)
        # (what is older than the program says nothing of it)
        copy.with_suffix(".build").write_text("abc123 proved\n")
        os.utime(copy.with_suffix(".build"), (1, 1))
        with Server(copy, policy=POLICY) as server:
            limits = {"workers": 2, "connections": 8192, "outbox": 1024, "keepalive": 30}
            limits |= {"history": 1_000_000, "history_bytes": 268_435_456}
            told_of = {"version": "0.1.0", "listen": "%s:%d" % server.address, **limits}
            exactly(line_of(server, "started"), event="started", **told_of)
    return "seven starts"


def programs(program, divide):
    """Who logs in or fails to, and what is denied, is told with the name, language and version of the client's program"""
    said = {"name": "de\"mo\n\u00e9", "lang": "go", "version": "1.31.0"}
    with Server(program, "--log", "all", policy=POLICY) as server:
        one = Client(server, user="bound", **said)
        one.send(b"PUB other 0\r\n\r\nSUB foo..bar 1\r\n")
        party = {**party_of(one, "bound"), **said}
        exactly(line_of(server, "connected"), event="connected", **party)
        exactly(line_of(server, "denied"), event="denied", command="PUB", subject="other", verdict="no allow", **party)
        want("lang" not in line_of(server, "protocol_error"), "the program is told with each line")
        # (in the piece of its CONNECT, and where that is cut)
        for cut in (None, 1, 20, 70):
            with Client(server, connect=False) as one:
                text = one.connecting("bound", **said).replace(b"CONNECT ", b"connect\t")
                text = b"ping\r\n" + text + b"PUB other 0\r\n\r\n"
                for part in [text] if cut is None else [text[:cut], text[cut:]]:
                    one.send(part)
                    time.sleep(0.1)
                fields = {"event": "denied", "command": "PUB", "subject": "other", "verdict": "no allow"}
                exactly(line_of(server, "denied", conn=one.number), **fields, **party_of(one, "bound"), **said)
        for given, kept in [
            ({"name": "n" * 3000, "lang": 7, "version": None}, {"name": "n" * 128}),
            ({"name": ["n"], "lang": {}, "version": ""}, {"version": ""}),
            ({"name": "\u20ac" * 50}, {"name": "\u20ac" * 42 + "\ufffd"}),
        ]:
            one = Client(server, **given)
            exactly(line_of(server, "connected", conn=one.number), event="connected", **party_of(one, "demo"), **kept)
        with Client(server, connect=False) as one:
            one.send(b'CONNECT {"user":"demo","pass":"wrong","name":"it","lang":"python3"}\r\n')
            one.rest()
            fields = {"event": "auth_failed", "user": "demo", "name": "it", "lang": "python3"}
            exactly(line_of(server, "auth_failed"), **fields, **party_of(one))
        # (what is no JSON is answered as before, and has nothing to be told)
        with Client(server, connect=False) as one:
            one.send(b'CONNECT {"name":"it"\r\n')
            one.rest()
            fields = {"event": "protocol_error", "text": "Parser Error"}
            exactly(line_of(server, **fields), **fields, **party_of(one))
    return "ten clients"


@contextlib.contextmanager
def without_more_memory(server):
    """The system gives a server no more memory meanwhile."""
    number = server.process.pid
    soft, hard = resource.prlimit(number, resource.RLIMIT_DATA)
    # (Linux takes 0 for no limit)
    resource.prlimit(number, resource.RLIMIT_DATA, (1, hard))
    try:
        yield
    finally:
        resource.prlimit(number, resource.RLIMIT_DATA, (soft, hard))


def endings(program, divide):
    """The line of a session's end has its reason, and how long the session was"""
    with Server(program, "--log", "all", policy=POLICY) as server:
        begin = time.monotonic()
        left, reset, wrong, slow = Client(server), Client(server), Client(server), Client(server, receive=4096)
        large = Client(server)
        slow.subscribe(b"flood")
        time.sleep(0.5)
        with without_more_memory(server):
            # (most of a frame, which has to be kept until the rest comes)
            large.send(b"PUB big 1000000\r\n%b" % bytes(900_000))
            large.rest()
        left.close()
        reset.reset()
        wrong.send(b"BLAH\r\n")
        wrong.rest()
        Flood(max(400_000 // divide, 40_000), size=128).run(Client(server), [])
        reasons = {left: "client left", reset: "socket failed", wrong: "error sent", slow: "slow consumer", large: "no memory"}
        for it, reason in reasons.items():
            line = line_of(server, "closed", conn=it.number)
            lasted = line.pop("lasted")
            want(400 <= lasted <= (time.monotonic() - begin) * 1000, f"{line} lasted {lasted}")
            party = {it: line[it] for it in ("conn", "peer", "user", "account")}
            exactly(line, event="closed", reason=reason, **party)
    return "five sessions"


def told_removed(program, divide):
    """With --tell-removed a client is sent an error for each subscription that a reload takes away, at each log level"""
    users = POLICY["accounts"]["A"]["users"]
    rules = {"subscribe": {"deny": ["bar", "it.>"]}}
    new = {"accounts": {"A": {"users": [*users[:2], {**users[2], "permissions": rules}]}}}
    for level in ("none", "denials"):
        with Server(program, "--tell-removed", "--log", level, policy=POLICY, file=True) as server:
            guest, other = Client(server, user="guest"), Client(server)
            guest.send(b"SUB bar 1\r\nSUB foo 2\r\nSUB it.* q 3\r\nSUB bar 4\r\nPING\r\n")
            guest.line(b"PONG")
            server.write(new)
            for text in (b'"bar"', b'"it.*" using queue "q"', b'"bar"'):
                got = guest.line(b"-ERR 'Permissions Violation for Subscription to ")
                want(got == text + b"'", f"{got} came, and not {text}")
            other.send(b"PUB bar 0\r\n\r\nPUB foo 2\r\nhi\r\n")
            want(guest.message() == (b"foo", b"2", None, b"hi"), "another message came")
            guest.ping()
            other.ping()
            want(server.line().startswith("epoch 2"), "the reload isn't printed")
    # (after a message that its socket has taken in part)
    with Server(program, "--tell-removed", policy=POLICY, file=True) as server:
        guest, other = Client(server, user="guest", receive=4096), Client(server)
        guest.send(b"SUB big 1\r\n" + b"".join(b"SUB it.%d 2%d\r\n" % (it, it) for it in range(500)) + b"PING\r\n")
        guest.line(b"PONG")
        big = b"x" * 1_000_000
        for _ in range(4):
            other.send(b"PUB big %d\r\n%b\r\n" % (len(big), big))
        other.ping()
        server.write(new)
        want(server.line() == "epoch 2", "the reload isn't printed")
        time.sleep(0.5)
        # (what waits in its outbox comes after them)
        messages, errors = 0, 0
        while (messages, errors) != (4, 500):
            line = guest.line()
            if line.startswith(b"MSG"):
                want(guest.take(len(big) + 2) == big + b"\r\n", "another message came")
                messages += 1
            else:
                text = b"-ERR 'Permissions Violation for Subscription to \"it.%d\"'" % errors
                want(line == text, f"{line} came, and not {text}")
                errors += 1
        guest.ping()
    with Server(program, policy=POLICY, file=True) as server:
        guest = Client(server, user="guest")
        guest.subscribe(b"bar")
        server.write(new)
        want(server.line() == "epoch 2", "the reload isn't printed")
        guest.ping()
        want(not guest.got, f"it is told {guest.got}")
    return "1,006 errors"


def grants(program, divide):
    """An answer that comes too late or once too often is told as such, and one to no request isn't"""
    asker = {"user": "asker", "password": "asker"}
    terms = {"once": True, "late": {"max": 5, "expires": "200ms"}, "both": {"max": 1, "expires": "200ms"}}
    rules = {it: {"pub": {"deny": ["secret.>"]}, "allow_responses": terms[it]} for it in terms}
    users = [{"user": it, "password": it, "permissions": rules[it]} for it in terms]
    with Server(program, policy={"accounts": {"A": {"users": [asker, *users]}}}) as server:
        asks = Client(server, user="asker")
        asks.subscribe(b"box.>", b"9")
        once, late, both = [Client(server, user=it) for it in terms]
        for it, name in [(once, b"once"), (late, b"late"), (both, b"both")]:
            it.subscribe(name)
            asks.send(b"PUB %b box.%b 0\r\n\r\nPUB %b secret.%b 0\r\n\r\n" % (name, name, name, name))
            for _ in range(2):
                it.message()

        def answers(it, subject, **fields):
            it.send(b"PUB %b 0\r\n\r\n" % subject.encode())
            it.line(b"-ERR 'Permissions Violation for Publish")
            line = line_of(server, "denied", subject=subject, conn=it.number)
            got = {name: line.get(name) for name in ("verdict", "reason")}
            want(got == {"verdict": "no allow", "reason": None, **fields}, f"the line is {line}")

        once.send(b"PUB box.once 0\r\n\r\n")
        want(asks.message()[0] == b"box.once", "the answer doesn't come")
        answers(once, "box.once", reason="grant used up")
        both.send(b"PUB box.both 0\r\n\r\n")
        want(asks.message()[0] == b"box.both", "the answer doesn't come")
        time.sleep(0.4)
        answers(late, "box.late", reason="grant expired")
        answers(late, "secret.late", verdict="denied", reason="grant expired")
        answers(both, "box.both", reason="grant used up")
        answers(both, "secret.both", verdict="denied", reason="grant expired")
        answers(once, "box.late")
    return "six denials"


def descriptors(program, divide):
    """No descriptor is left: told once, and again once that was over"""
    with Server(program, policy=POLICY, file=True, descriptors=40) as server:
        for count in (1, 2):
            many = [Client(server, connect=None) for _ in range(60)]
            wait_for(lambda: len([it for it in told(server) if it["event"] == "no_descriptors"]) >= count,
                     f"{count} lines; there are {told(server)}", SOON)
            for it in many:
                it.close()
            wait_for(lambda: server.descriptors() < 20, "the connections are closed")
            is_alive(server)
        lines = told(server)
        want(len(lines) <= 6, f"there are more lines: {lines}")
    return f"{len(lines)} lines"


def levels(program, divide):
    """With --log none nothing is told, and with --log all connects and closings too"""
    for level, wanted in [("none", []), ("all", ["connected", "denied", "closed"])]:
        with Server(program, "--log", level, policy=POLICY) as server:
            one = Client(server, user="bound")
            one.send(b"PUB other 0\r\n\r\nPING\r\n")
            one.line(b"-ERR 'Permissions Violation")
            one.line(b"PONG")
            one.close()
            wait_for(lambda: server.descriptors() < 20, "it is closed")
            if wanted:
                line_of(server, "closed", **{"conn": one.number, "user": "bound"})
            is_alive(server)
            got = [it["event"] for it in told(server) if it.get("conn") == one.number]
            want(got == wanted, f"{level}: {told(server)}")
    return "none, all"


def rates(program, divide):
    """No more than ten lines a second of a connection and 1,000 in all, and what is left out is counted"""
    with Server(program, policy=POLICY) as server:
        one = Client(server, user="bound")
        begin = time.time()
        for _ in range(20):
            one.send(b"PUB other 0\r\n\r\n" * 100)
            for _ in range(100):
                one.line(b"-ERR 'Permissions Violation")
            time.sleep(0.1)
        time.sleep(1.1)
        one.send(b"PUB last 0\r\n\r\n")
        line_of(server, "denied", subject="last")
        lines, seconds = told(server), time.time() - begin
        counted = len(lines) + sum(it.get("left_out", 0) for it in lines)
        want(counted == 2001, f"{counted} lines are told and counted, and not 2001")
        each = {}
        for it in lines:
            each[it["at"] // 1000] = each.get(it["at"] // 1000, 0) + 1
        want(max(each.values()) <= 10, f"lines of the seconds: {each}")
        want(len(lines) >= 11, f"{len(lines)} lines")
        many = [Client(server, user="bound") for _ in range(200)]
        for it in many:
            it.send(b"PUB other 0\r\n\r\n" * 10)
        for it in many:
            for _ in range(10):
                it.line(b"-ERR 'Permissions Violation")
        time.sleep(1.1)
        one.send(b"PUB last.all 0\r\n\r\n")
        line_of(server, "denied", subject="last.all")
        lines = told(server)
        for it in lines:
            each[it["at"] // 1000] = sum(other["at"] // 1000 == it["at"] // 1000 for other in lines)
        want(max(each.values()) <= 1000, f"lines of the seconds: {each}")
        counted = len(lines) + sum(it.get("left_out", 0) for it in lines)
        want(counted == 4002, f"{counted} lines are told and counted, and not 4002")
    return f"{len(lines)} lines in {seconds:.0f} s and then"


def full_pipe(program, divide):
    """A standard error that nobody reads stalls nobody"""
    with tempfile.TemporaryDirectory() as room:
        path = os.path.join(room, "policy.json")
        with open(path, "w") as out:
            json.dump(POLICY, out)
        line = [program, "serve", "--listen", "127.0.0.1:0", "--policy", path]
        it = subprocess.Popen(line, stdout=subprocess.PIPE, stderr=subprocess.PIPE)
        try:
            host, _, port = it.stdout.readline().decode().split()[1].rpartition(":")
            server = type("Address", (), {"address": (host, int(port))})
            name, count = b"n" * 3000, 0
            for _ in range(3):
                for one in [Client(server, user="bound") for _ in range(100)]:
                    one.send(b"PUB %b 0\r\n\r\n" % name * 10)
                    for _ in range(10):
                        one.line(b"-ERR 'Permissions Violation")
                        count += 1
                    one.close()
                time.sleep(1)
                is_alive(server)
            with open(path + ".new", "w") as out:
                json.dump({"accounts": {"A": {"users": POLICY["accounts"]["A"]["users"][:1]}}}, out)
            os.replace(path + ".new", path)
            want(it.stdout.readline() == b"epoch 2\n", "the reload isn't told")
            is_alive(server)
            # (what was left out is counted in the next line, once the pipe is read)
            lines = []
            threading.Thread(target=lambda: [lines.append(json.loads(it)) for it in it.stderr], daemon=True).start()
            wait_for(lambda: lines and len(lines[0]) > 2, "lines are written", SOON)
            time.sleep(1)
            with Client(server, connect=False) as one:
                one.send(b"BLAH\r\n")
                one.rest()
            wait_for(lambda: lines[-1].get("text"), f"the last line is {lines[-1]}", SOON)
            counted = len(lines) - 3 + sum(it.get("left_out", 0) for it in lines)
            want(any(it.get("left_out") for it in lines), "nothing was left out")
            want(counted == count, f"{counted} lines are told and counted, and not {count}")
        finally:
            it.kill()
            it.wait()
    return f"{count} lines were due, and {len(lines)} told"


if __name__ == "__main__":
    run(__doc__, refusals, errors, no_route, limits, slow_consumer, slow_reasons, held_reason, reloads, begins, programs,
        endings, told_removed, grants, descriptors, levels, rates, full_pipe)

#!/usr/bin/env python3
"""20 clients that do what chance says, while policies change: nothing is lost, doubled, out of order or forbidden.

All is done by one thread, which notes when it sent each frame and when its answer came. So of each message it is known
between which two moments it was accepted; of each subscription, between which it certainly stood, and outside of which
it certainly didn't; of each policy, between which moments it may have been in force (from its frame to the line behind
it) and since when no earlier one is (its own line). What these don't decide isn't judged. Then

- a message that was answered +OK is delivered to each subscription that certainly stood, where each policy that may
  have been in force lets its user have it; on a connection that has ended since, if a later one of its publisher was;
- it isn't delivered to one that certainly didn't stand, nor where each policy that may have been in force denies it;
- each subscription is sent a message once, and those of one publisher in their order;
- of a queue group exactly one member is sent it.

Readers pause at random, with sockets that take little and a small outbox, so publishers wait for them now and then.
"""

import random
import time

import clients
from clients import LIMIT, TEXTS, Client, Server, run, shown, storm, want

SECONDS = 4
COUNT, USERS, GUESTS = 20, 5, 2
OUTBOX = 16
TOPICS = 6


def policy_of(chance, number):
    """Returns a policy, and whom it denies which of the subjects r.0 .. to publish and to be sent; guests may miss."""
    denied = {f"u{it}": ({f"r.{k}" for k in range(TOPICS) if chance.random() < 0.3},
                         {f"r.{k}" for k in range(TOPICS) if chance.random() < 0.3}) for it in range(USERS)}
    users = [{"user": name, "password": name, "permissions": {"publish": {"deny": sorted(publish)},
                                                              "subscribe": {"deny": sorted(receive)}}}
             for name, (publish, receive) in denied.items()]
    if number == 1 or chance.random() < 0.7:
        for it in range(GUESTS):
            users.append({"user": f"g{it}", "password": f"g{it}"})
            denied[f"g{it}"] = set(), set()
    return {"accounts": {"A": {"users": users}}}, denied


class Policies:
    """Which policies there were, and when each may have been in force."""

    def __init__(self, chance):
        self.chance, self.all = chance, []

    def next(self):
        text, denied = policy_of(self.chance, len(self.all) + 1)
        # (its rules, the moment of its frame, and of its line)
        self.all.append([denied, time.monotonic(), None])
        return text

    def between(self, begin, end):
        """Returns the rules of each that may have been in force then."""
        rules = []
        for place, (denied, frame, _) in enumerate(self.all):
            behind = self.all[place + 1][2] if place + 1 < len(self.all) else None
            if frame <= end and (behind is None or behind >= begin):
                rules.append(denied)
        return rules


class Message:
    def __init__(self, publisher, number, subject):
        self.publisher, self.number, self.subject = publisher, number, subject
        # (unknown until it is answered; then whether it was accepted)
        self.sent, self.answered, self.accepted = time.monotonic(), None, None


class Subscription:
    def __init__(self, owner, pattern, queue):
        self.owner, self.pattern, self.queue = owner, pattern, queue
        self.sent, self.stands, self.leaves, self.left = time.monotonic(), None, None, None
        self.got, self.last = {}, {}

    def matches(self, subject):
        return self.pattern == ">" or self.pattern == subject or self.pattern == subject.split(".")[0] + ".*"


class Wild:
    """A connection that does what chance says."""

    def __init__(self, world, client, user, kind):
        self.world, self.client, self.user, self.kind = world, client, user, kind
        self.out, self.asked, self.subscriptions = b"", [], {}
        self.paused_until, self.is_ended, self.sids = 0, False, 0
        self.number = 0
        self.name = len(world.everyone)
        world.everyone.append(self)
        client.socket.setblocking(False)
        for pattern in ("a.*", "r.*"):
            self.subscribe(pattern)

    def ask(self, frame, kind, what=None):
        self.out += frame
        self.asked.append((kind, what))

    def subscribe(self, pattern, queue=None):
        self.sids += 1
        it = Subscription(self, pattern, queue)
        self.subscriptions[b"%d" % self.sids] = it
        self.world.subscriptions.append(it)
        words = ["SUB", pattern, *([queue] if queue else []), str(self.sids)]
        self.ask(" ".join(words).encode() + b"\r\n", "sub", it)

    def unsubscribe(self, sid):
        it = self.subscriptions[sid]
        it.leaves = time.monotonic()
        self.ask(b"UNSUB %b\r\n" % sid, "unsub", it)

    def publish(self, chance):
        for _ in range(chance.choice((1, 1, 3, 30))):
            subject = f"{chance.choice('aaqrr')}.{chance.randrange(TOPICS)}"
            it = Message(self.name, self.number, subject)
            self.world.messages[self.name, self.number] = it
            text = b"%d.%d." % (self.name, self.number) + b"x" * chance.choice((0, 10, 1_000, 4_000))
            self.ask(b"PUB %b %d\r\n%b\r\n" % (subject.encode(), len(text), text), "pub", it)
            self.number += 1

    def act(self, chance):
        """Does something now and then."""
        if len(self.asked) > 60 or len(self.out) > 1 << 17:
            return
        what = chance.random()
        if what < 0.5:
            self.publish(chance)
        elif what < 0.52:
            self.subscribe(chance.choice(("a.*", "r.*", ">", f"a.{chance.randrange(TOPICS)}")))
        elif what < 0.53 and len(self.subscriptions) < 40:
            self.subscribe("q.*", "group")
        elif what < 0.55:
            stands = [sid for sid, it in self.subscriptions.items()
                      if it.leaves is None and it is not self.world.member]
            if len(stands) > 2:
                self.unsubscribe(chance.choice(stands))
        elif what < 0.56:
            self.paused_until = time.monotonic() + chance.random() * 0.6
        elif what < 0.562 and self.kind == "visitor":
            self.client.close()
            self.is_ended = True
        elif what < 0.6:
            self.ask(b"PING\r\n", "ping")

    def write(self):
        if self.out and not self.is_ended:
            try:
                self.out = self.out[self.client.socket.send(self.out):]
            except BlockingIOError:
                pass
            except (BrokenPipeError, ConnectionResetError):
                self.out = b""

    def read(self):
        try:
            data = self.client.socket.recv(1 << 17)
        except BlockingIOError:
            return
        except ConnectionResetError:
            data = b""
        if not data:
            want(self.kind == "guest", f"the connection of {self.user} has ended, and it is no guest")
            self.client.close()
            self.is_ended = True
        self.client.got += data
        while not self.is_ended and self.take():
            pass

    def take(self):
        """Takes what has come whole: an answer or a message. Returns whether there was any."""
        got, now = self.client.got, time.monotonic()
        at = got.find(b"\r\n")
        if at < 0:
            return False
        line = bytes(got[:at])
        if line.startswith(b"MSG "):
            _, subject, sid, size = line.split(b" ")
            behind = at + 2 + int(size)
            if len(got) < behind + 2:
                return False
            text = bytes(got[at + 2:behind])
            del got[:behind + 2]
            self.hear(subject.decode(), sid, text, now)
            return True
        del got[:at + 2]
        if line + b"\r\n" == TEXTS["authorization"]:
            want(self.kind == "guest", f"{self.user} is told {line!r}")
            return True
        is_answer = line in (b"+OK", b"PONG") or line.startswith(b"-ERR 'Permissions Violation for Publish")
        want(is_answer, f"came {shown(line)}")
        want(self.asked, f"{line!r} answers nothing")
        kind, what = self.asked.pop(0)
        want((line == b"PONG") == (kind == "ping"), f"{line!r} answers a {kind}")
        if kind == "pub":
            what.answered, what.accepted = now, line == b"+OK"
        elif kind == "sub":
            what.stands = now
        elif kind == "unsub":
            what.left = now
        return True

    def hear(self, subject, sid, text, now):
        """Notes a message."""
        publisher, number, _ = text.split(b".", 2)
        name = int(publisher), int(number)
        message, it = self.world.messages.get(name), self.subscriptions.get(sid)
        want(message and message.subject == subject, f"a message on {subject} that nobody published: {shown(text)}")
        want(it and it.matches(subject), f"a message on {subject} came to subscription {sid!r}")
        want(it.last.get(name[0], -1) < name[1], f"message {name} came {'again' if name in it.got else 'late'}")
        it.last[name[0]] = name[1]
        it.got[name] = now


class World:
    """All that has happened."""

    def __init__(self, server, workers, chance):
        self.server, self.workers, self.chance = server, workers, chance
        self.everyone, self.messages, self.subscriptions = [], {}, []
        self.member = None
        self.policies = Policies(chance)

    def come(self, user, kind):
        """Returns a new connection of this user, or none where it is refused."""
        client = Client(self.server, connect=False, receive=self.chance.choice((1 << 18, None)))
        client.send(Client.connecting(user, verbose=True))
        line = client.line()
        if kind == "guest" and line + b"\r\n" == TEXTS["authorization"]:
            client.close()
            return None
        want(line == b"+OK", f"the CONNECT of {user} was answered {line!r}")
        return Wild(self, client, user, kind)

    def run(self, seconds):
        """Lets all act for so long, and then hears what is still to come."""
        kinds = ["guest"] * 4 + ["visitor"] * 4 + ["steady"] * (COUNT - 8)
        places = [(f"g{it % GUESTS}" if kind == "guest" else f"u{it % USERS}", kind) for it, kind in enumerate(kinds)]
        standing = [self.come(*it) for it in places]
        standing[-1].subscribe("q.*", "group")
        self.member = self.subscriptions[-1]
        begin = time.monotonic()
        reload_at = begin + 0.3
        while (now := time.monotonic()) < begin + seconds:
            self.turn(standing, now, True)
            for place, it in enumerate(standing):
                if it is None or it.is_ended:
                    standing[place] = self.come(*places[place]) if self.chance.random() < 0.05 else None
            self.hear_lines()
            if now > reload_at and self.policies.all[-1][2]:
                self.server.frame(self.policies.next())
                reload_at = now + 0.05 + self.chance.random() * 0.3
        standing = [it for it in standing if it and not it.is_ended]
        for it in standing:
            it.paused_until = 0
            it.ask(b"PING\r\n", "ping")
        end = time.monotonic() + LIMIT
        while any(it.asked and not it.is_ended for it in standing):
            self.turn(standing, time.monotonic(), False)
            want(time.monotonic() < end, f"not answered within {LIMIT} s: {[len(it.asked) for it in standing]}")
        # (what was accepted late may come after the first PONGs)
        for it in standing:
            if not it.is_ended:
                it.ask(b"PING\r\n", "ping")
        while any(it.asked and not it.is_ended for it in standing):
            self.turn(standing, time.monotonic(), False)
            want(time.monotonic() < end, "a last PING isn't answered")

    def turn(self, standing, now, acts):
        """Has each read, write and act once."""
        before = len(self.messages)
        for it in standing:
            if it and not it.is_ended:
                if acts and self.chance.random() < 0.5:
                    it.act(self.chance)
                if not it.is_ended:
                    it.write()
                    if now > it.paused_until:
                        it.read()
        if before == len(self.messages):
            time.sleep(0.0005)

    def hear_lines(self):
        """Notes which policies are in force."""
        while self.server.read < len(self.server.lines):
            words = self.server.line().split(" ")
            if words[0] == "epoch":
                self.policies.all[int(words[1]) - 1][2] = time.monotonic()
            else:
                want(words[0] == "gone", f"printed {words}")

    def judge(self):
        """Shows what is to hold of all messages, and returns how many deliveries were wanted, and refused."""
        due = refused = 0
        matching = {}
        for message in self.messages.values():
            if message.accepted is None:
                # (unanswered: of a connection that has ended; it may have been accepted until then)
                continue
            rules = self.policies.between(message.sent, message.answered)
            user = self.everyone[message.publisher].user
            admits = [message.subject not in rule.get(user, (set(),))[0] for rule in rules]
            want(any(it == message.accepted for it in admits),
                 f"a message of {user} on {message.subject} was {'accepted' if message.accepted else 'refused'}")
            name, taken = (message.publisher, message.number), 0
            if message.subject not in matching:
                matching[message.subject] = [it for it in self.subscriptions if it.matches(message.subject)]
            for it in matching[message.subject]:
                got = name in it.got
                want(message.accepted or not got, f"message {name} was refused and delivered")
                if it.queue:
                    taken += got
                    continue
                must, may = self.verdict(it, message, rules)
                due, refused = due + must, refused + (not may)
                want(may or not got, f"{it.owner.user} was sent message {name} on {message.subject}, which is "
                     f"forbidden or wasn't subscribed to ({it.pattern})")
                if must and not got:
                    later = it.last.get(message.publisher, -1) > message.number
                    want(it.owner.is_ended and not later, f"{it.owner.user} wasn't sent message {name} on "
                         f"{message.subject} ({it.pattern}, {it.owner.kind})")
            if message.subject.startswith("q.") and message.accepted:
                self.judge_queue(message, taken)
        return due, refused

    def judge_queue(self, message, taken):
        """Shows that one member of the group was sent a message; none, where one that has ended may have had it."""
        least = int(self.member.stands <= message.sent)
        for it in self.subscriptions:
            stood = it.sent <= message.answered and not (it.left and it.left < message.sent)
            if it.queue and it.owner.is_ended and stood:
                least = 0
        want(least <= taken <= 1, f"{taken} members of a queue group were sent {message.publisher}.{message.number}")

    @staticmethod
    def verdict(it, message, rules):
        """Returns whether a subscription has to be sent a message, and whether it may be."""
        lets = [message.subject not in rule[it.owner.user][1] for rule in rules if it.owner.user in rule]
        stays = it.leaves is None or it.leaves >= message.answered
        stands = it.stands is not None and it.stands <= message.sent and stays
        outside = it.sent > message.answered or it.left is not None and it.left < message.sent
        must = bool(message.accepted) and stands and all(lets) and len(lets) == len(rules)
        return must, bool(message.accepted) and not outside and any(lets)


@storm(1, 2, 4)
def random_clients(program, divide, workers):
    """20 clients at random for some seconds"""
    chance = random.Random(clients.SEED)
    policies = Policies(chance)
    with Server(program, "--workers", workers, "--outbox", OUTBOX, policy=policies.next()) as server:
        world = World(server, workers, chance)
        world.policies = policies
        policies.all[0][2] = time.monotonic()
        world.run(SECONDS)
        due, refused = world.judge()
    return (f"{len(world.messages)} messages, {due} deliveries due and {refused} forbidden, "
            f"{len(policies.all)} policies, {len(world.everyone)} connections")


if __name__ == "__main__":
    run(__doc__.split("\n")[0], random_clients)

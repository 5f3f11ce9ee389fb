#!/usr/bin/env python3
"""What one tenant does while another one's PINGs are answered: how long those take, on each worker."""

import time

from clients import Client, Server, client_on, raise_descriptors, run, storm, want
from storming import OTHER, QUIET, TENANTS, Hearing, Sending, deaf, fill_sockets, longest, median, pinger_on, spread

PUB = b"PUB ab 1\r\nx\r\n"


def beside_piece(program, workers, messages, sessions, subscriptions, bound):
    """One piece of a number of messages to a number of sessions, three times."""
    raise_descriptors(sessions + 200)
    with Server(program, "--workers", workers, policy=TENANTS) as server:
        publisher, receivers = Client(server), spread(server, sessions, workers)
        for it in receivers:
            it.send(b"".join(b"SUB ab %d\r\n" % sid for sid in range(subscriptions)))
            it.ping()
        each = sum(len(b"MSG ab %d 1\r\nx\r\n" % sid) for sid in range(subscriptions))
        hearing, moments = Hearing(receivers), []
        with pinger_on(server, workers) as pinger:
            crowd = Crowd(server)
            for turn in range(3):
                begin = time.monotonic()
                publisher.send(messages * PUB)
                hearing.wait((turn + 1) * messages * each * sessions, "a piece")
                moments.append((begin, time.monotonic()))
                time.sleep(0.05)
            seen = pinger.stop()
        hearing.end()
        took = f"{sum(end - begin for begin, end in moments) / 3:.1f} s a piece"
        return judged(pinger, seen, moments, bound * crowd.slowed()) + f", {took}"


def judged(pinger, seen, moments, bound):
    """Shows that PINGs at these moments were answered in time: the median of the longest each time is below the bound
    and three times the longest while nothing happens."""
    quiet, found = longest(seen, 0, pinger.begin + QUIET), sorted(longest(seen, *it) for it in moments)
    text = f"another tenant's PINGs take at most {', '.join(f'{it:.1f}' for it in found)} ms, {quiet:.1f} before"
    text += f", wanted {bound + 3 * quiet:.0f}"
    want(found[len(found) // 2] < bound + 3 * quiet, text)
    return text


class Crowd:
    """How much slower a server is since others use the processors too."""

    def __init__(self, server):
        self.server, self.before = server, server.scheduled()

    def slowed(self):
        """Returns by which factor, from the beginning on."""
        run, waited = (now - before for now, before in zip(self.server.scheduled(), self.before))
        return 1 + waited / max(run, 1)


@storm(1, 2)
def fifteen_hundred(program, divide, workers):
    """A piece of 315 messages to 1,500 sessions"""
    return beside_piece(program, workers, 315, 1_500, 1, 60)


@storm(2)
def three_thousand(program, divide, workers):
    """A piece of 315 messages to 3,000 sessions"""
    return beside_piece(program, workers, 315, 3_000, 1, 60)


@storm(2)
def thousand_each(program, divide, workers):
    """A piece of 315 messages to 25 sessions with 1,000 subscriptions each"""
    return beside_piece(program, workers, 315, 25, 1_000, 300)


def beside_deaf(program, workers, count):
    """450 publishers that have published to receivers whose sockets take no more, a second and four later."""
    with Server(program, "--workers", workers, policy=TENANTS) as server:
        publishers = spread(server, 450, workers)
        for it in range(count):
            deaf(server, b"held", it % workers, workers).keep()
        with pinger_on(server, workers) as pinger:
            # (what their sockets hold, and then more than half an outbox of each, but less than a whole one)
            fill_sockets(server, publishers[0], b"held")
            for it in publishers:
                it.send(2 * b"PUB held 2\r\nhi\r\n")
            parts = []
            for pause in (1, 3):
                time.sleep(pause)
                begin, used = time.monotonic(), server.seconds()
                time.sleep(1)
                parts.append((begin, time.monotonic(), server.seconds() - used))
            seen = pinger.stop()
        quiet = median(seen, 0, pinger.begin + QUIET)
        Client.kept.clear()
        found = [median(seen, begin, end) for begin, end, _ in parts]
        used = [used / (end - begin) for begin, end, used in parts]
        text = (f"another tenant's PINGs take {found[0]:.2f} and {found[1]:.2f} ms, {quiet:.2f} before, "
                f"with {used[0]:.2f} and {used[1]:.2f} of a processor")
        want(max(found) < 0.5 + 3 * quiet and max(used) < 0.5, text)
    return text


@storm(1, 2)
def four_deaf(program, divide, workers):
    """450 publishers beside 4 receivers that don't read"""
    return beside_deaf(program, workers, 4)


@storm(2)
def twelve_deaf(program, divide, workers):
    """450 publishers beside 12 receivers that don't read"""
    return beside_deaf(program, workers, 12)


def entries(first):
    """Returns 300 subjects that a user may subscribe to."""
    return [f"s{it}.*" for it in range(first, first + 300)]


def large_policy(users, first, others=1, first_of_one=None):
    """Returns a policy with so many users, whose entries begin with this number, those of one of them with another."""
    firsts = [first_of_one or first, *[first] * (users - 1)]
    named = [{"user": f"u{it}", "password": f"u{it}", "permissions": {"subscribe": {"allow": entries(its)}}}
             for it, its in enumerate(firsts)]
    other = [{"user": f"o{it}", "password": f"o{it}"} for it in range(others)]
    return {"accounts": {"A": {"users": named}, "B": {"users": [OTHER, *other]}}}


@storm(2)
def large_reload(program, divide, workers):
    """Reloads with 20,000 subscriptions of users with 300 entries: all as it was, one user changed, and all changed"""
    return beside_reloads(program, workers, 400)


@storm()
def very_large_reload(program, divide, workers):
    """Reloads with 200,000 subscriptions of users with 300 entries: all as it was, one user changed, and all changed"""
    return beside_reloads(program, workers, 4_000)


def beside_reloads(program, workers, each):
    """Reloads while each of 50 users has this number of subscriptions."""
    users = 50
    with Server(program, "--workers", workers, policy=large_policy(users, 0)) as server:
        clients = [client_on(server, it % workers, workers, user=f"u{it}") for it in range(users)]
        wishes = b"".join(b"SUB s%d.%d %d\r\n" % (1 + sid % 299, sid, sid) for sid in range(each))
        for it in clients:
            Sending(it, wishes + b"PING\r\n")
        for it in clients:
            it.line(b"PONG")
        texts = {"as it was": [large_policy(users, 0, others) for others in (2, 3, 4)],
                 "one user changed": [large_policy(users, 0, 4, first) for first in (1, None, 1)],
                 "changed": [large_policy(users, first, 4) for first in (1, 0, 1)]}
        found, epoch = [], 1
        for kind, policies in texts.items():
            moments = []
            with pinger_on(server, workers, b"PUB nobody 2\r\nhi\r\n") as pinger:
                crowd = Crowd(server)
                for policy in policies:
                    epoch, begin = epoch + 1, time.monotonic()
                    server.frame(policy)
                    want((line := server.line()) == f"epoch {epoch}", f"printed {line}")
                    moments.append((begin, time.monotonic()))
                    time.sleep(0.05)
                seen = pinger.stop()
            # (a reload's own time is spent outside the lock mostly; where all lists change, each subscription is judged under it)
            most = 300 if kind == "changed" else 80
            found.append(f"{kind}: {judged(pinger, seen, moments, most * crowd.slowed())}")
        for it in clients:
            it.ping()
    return "; ".join(found)


if __name__ == "__main__":
    run(__doc__, fifteen_hundred, three_thousand, thousand_each, four_deaf, twelve_deaf, large_reload,
        very_large_reload)

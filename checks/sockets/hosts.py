#!/usr/bin/env python3
"""Four tenants in three sets, each set's natsd on a host of its own, behind HAProxy, by the commands of packaging/sets.

Each host has a network namespace. In place of scp, ssh and systemctl this copies files between folders, and starts and
stops processes. Each tenant has a client of these checks, and in some checks one over libnats. Where there is no HAProxy or
libnats and it can't be installed, or nobody may make a namespace, a line says so and nothing is counted."""

import contextlib
import json
import os
import pathlib
import re
import shlex
import shutil
import signal
import ssl
import subprocess
import tempfile
import threading
import time

from clients import Client, Failed, run, wait_for, want
from hosting import ip, lacks, lacks_libnats, lacks_namespaces, over_libnats, skip_if, within

ROOT = pathlib.Path(__file__).resolve().parents[2]
SETS = ROOT / "packaging" / "sets"
PAGE = ROOT / "docs" / "OPERATING.md"
PROXY = "10.78.0.1"
HOSTS = {"ONE": "10.78.0.11", "THREE": "10.78.0.12", "FOUR": "10.78.0.13"}
# The host of a client that vanishes.
FAR = "10.78.0.21"
PORTS = {"ONE": 4222, "TWO": 4222, "THREE": 4223, "FOUR": 4224}
# HAProxy looks at a server two seconds after it did before, for two seconds at most, and takes it for dead after two looks.
LOOKS = 8
SOON = 15
DRAIN = "set server ONE/natsd state drain"


def name_of(address):
    """Returns the namespace of an address."""
    return f"natsd-{os.getpid()}-{address.rpartition('.')[2]}"


def host_of(account):
    """Returns the name by which clients of TLS reach an account."""
    return f"{account.lower()}.example.com"


def policy(joined=False, gone=False):
    """TWO imports from ONE. `joined`: FOUR imports from THREE. `gone`: THREE has lost a user."""
    users = {it: [{"user": it.lower(), "password": it.lower()}] for it in PORTS}
    users["THREE"] += [] if gone else [{"user": "guest", "password": "guest"}]
    accounts = {it: {"users": users[it]} for it in PORTS}
    accounts["ONE"]["exports"] = [{"stream": "news.>"}]
    accounts["TWO"]["imports"] = [{"stream": {"account": "ONE", "subject": "news.>"}, "prefix": "one"}]
    accounts["THREE"]["exports"] = [{"stream": "news.>"}]
    if joined:
        accounts["FOUR"]["imports"] = [{"stream": {"account": "THREE", "subject": "news.>"}, "prefix": "three"}]
    return {"accounts": accounts}


class Net:
    """Three hosts, a proxy and a client's host on one network, with a folder each."""

    def __init__(self, program, room, divided, is_named):
        self.program, self.room, self.servers, self.proxy = program, pathlib.Path(room), {}, None
        # By how much HAProxy's times for clients and servers that vanish are divided.
        self.divided = divided
        # Whether the sets have names for clients of TLS.
        self.is_named = is_named

    def begin(self):
        """Makes the hosts, their links, and the table of sets."""
        (self.room / "sets").mkdir()
        hosts = {it: f" {host_of(it)}" if self.is_named else "" for it in HOSTS}
        rows = [f"{it} {PORTS[it]} {address}:4222{hosts[it]}\n" for it, address in HOSTS.items()]
        (self.room / "sets" / "table").write_text("".join(rows))
        if self.is_named:
            self.certify()
        for address in (PROXY, FAR, *HOSTS.values()):
            (self.room / address).mkdir()
            ip("netns", "add", name_of(address))
            ip("-n", name_of(address), "link", "set", "lo", "up")
        ip("-n", name_of(PROXY), "link", "add", "bridge", "type", "bridge")
        for address in (FAR, *HOSTS.values()):
            link = f"to{address.rpartition('.')[2]}"
            peer = ("type", "veth", "peer", "name", "veth0", "netns", name_of(address))
            ip("-n", name_of(PROXY), "link", "add", link, *peer)
            ip("-n", name_of(PROXY), "link", "set", link, "master", "bridge", "up")
        for address, link in ((PROXY, "bridge"), *((it, "veth0") for it in (FAR, *HOSTS.values()))):
            ip("-n", name_of(address), "address", "add", f"{address}/24", "dev", link)
            ip("-n", name_of(address), "link", "set", link, "up")

    def certify(self):
        """Makes the certificate of the names."""
        names = ",".join(f"DNS:{host_of(it)}" for it in (*HOSTS, "none"))
        line = ["openssl", "req", "-x509", "-newkey", "rsa:2048", "-nodes", "-days", "1", "-subj", "/CN=natsd"]
        line += ["-addext", f"subjectAltName={names}", "-keyout", self.room / "key.pem", "-out", self.room / "cert.pem"]
        subprocess.run(line, check=True, capture_output=True)
        both = "".join((self.room / f"{it}.pem").read_text() for it in ("key", "cert"))
        (self.room / "sets" / "tls.pem").write_text(both)

    def link(self, address, state):
        ip("-n", name_of(address), "link", "set", "veth0", state)

    def install(self, accounts):
        """Does for a policy what an operator does: `natsd check --split`, packaging/sets, and what that prints."""
        shutil.rmtree(self.room / "parts", ignore_errors=True)
        how = {"cwd": self.room, "check": True, "capture_output": True, "text": True}
        (self.room / "policy.json").write_text(json.dumps(accounts))
        subprocess.run([self.program, "check", "--split", "parts", "--policy", "policy.json"], **how)
        for line in subprocess.run([SETS, "parts", "sets"], **how).stdout.splitlines():
            self.does(line)

    def does(self, line):
        """Does a command that packaging/sets has printed."""
        command, *words = shlex.split(line)
        if command == "scp":
            host = words[-1].partition(":")[0]
            for path in words[1:-1]:
                shutil.copy(self.room / path, self.room / host / "new")
                os.replace(self.room / host / "new", self.room / host / pathlib.Path(path).name)
        elif command == "ssh":
            host, _, verb, *_, unit = words
            self.stop(unit) if verb == "disable" else self.start(host, unit)
        elif command == "systemctl":
            want(words == ["reload", "haproxy"], f"nobody expects {line}")
            self.reload_proxy()
        else:
            subprocess.run(["sh", "-c", line], cwd=self.room, check=True)

    def start(self, host, unit):
        name = unit.removeprefix("natsd@")
        listen = (self.room / host / f"{name}.env").read_text().removeprefix("LISTEN=").strip()
        line = [self.program, "serve", "--listen", listen, "--policy", self.room / host / f"{name}.json"]
        how = {"stdout": subprocess.PIPE, "stderr": subprocess.DEVNULL, "text": True}
        it = subprocess.Popen(["ip", "netns", "exec", name_of(host), *line], **how)
        self.servers[unit] = it
        want(it.stdout.readline().startswith("listening"), f"{unit} doesn't listen")

    def stop(self, unit):
        self.servers[unit].terminate()
        self.servers.pop(unit).wait()

    def reload_proxy(self):
        path = self.room / "haproxy.cfg"
        text = (self.room / "sets" / "haproxy.cfg").read_text()
        text = re.sub(r"^( *stats socket) \S+", rf"\1 {self.room}/admin.sock", text, flags=re.M)
        times = r"((?:cli|srv)tcpka-\w+|tcp-ut) (\d+)s"
        path.write_text(re.sub(times, lambda it: f"{it[1]} {int(it[2]) // self.divided}s", text))
        if self.proxy:
            # (in its first moments it ignores the signal)
            wait_for(lambda: catches(self.proxy.pid, signal.SIGUSR2), "HAProxy can be told to reload", SOON)
            self.proxy.send_signal(signal.SIGUSR2)
            return
        line = ["ip", "netns", "exec", name_of(PROXY), "haproxy", "-W", "-S", self.room / "master.sock", "-f", path]
        self.proxy = subprocess.Popen(line, stdout=subprocess.DEVNULL, stderr=subprocess.DEVNULL)

    def replace_proxy(self):
        """Reloads HAProxy. Once this returns, its old process lets nobody in; it keeps its clients."""
        old = self.workers()
        self.reload_proxy()
        wait_for(lambda: set(self.workers()) - set(old), "HAProxy has a new process", SOON)
        for it in old:
            wait_for(lambda: "Stopping: 1" in self.asks_master(f"@!{it} show info"), "the old one lets nobody in", SOON)

    def workers(self):
        """Returns the numbers of HAProxy's processes that have clients, old ones too."""
        return re.findall(r"^(\d+)\s+worker\s", self.asks_master("show proc"), re.M)

    def asks_master(self, line):
        """Gives HAProxy's master a command, and returns what it answers, nothing while it starts anew."""
        how = {"input": f"{line}\n", "capture_output": True, "text": True}
        return subprocess.run(["socat", "-", f"{self.room}/master.sock"], **how).stdout

    def tells_proxy(self, line):
        """Gives HAProxy a command about ONE, as docs/OPERATING.md gives it DRAIN about BILLING."""
        page = [it for it in re.findall("`([^`\n]*)`", PAGE.read_text()) if DRAIN.replace("ONE", "BILLING") in it]
        want(len(page) == 1, f"the page has {page}")
        command = page[0].replace("BILLING", "ONE").replace(DRAIN, line).replace("/run/haproxy", str(self.room))
        ran = subprocess.run(["sh", "-c", command], capture_output=True, text=True)
        want((ran.returncode, ran.stdout.strip(), ran.stderr) == (0, "", ""), f"{command}: {ran}")

    def close(self):
        for it in [*self.servers.values(), *([self.proxy] if self.proxy else [])]:
            it.terminate()
            it.wait()
        remove()


def catches(number, it):
    """Returns whether a process handles a signal."""
    caught = re.search(r"^SigCgt:\s+(\w+)", pathlib.Path(f"/proc/{number}/status").read_text(), re.M)[1]
    return int(caught, 16) >> (it - 1) & 1


def remove():
    for address in (PROXY, FAR, *HOSTS.values()):
        ip("netns", "delete", name_of(address), check=False)


class Tenant(Client):
    """A client of an account, through the proxy. It has a subscription to everything."""

    def __init__(self, account, user=None, host=PROXY):
        self.address = PROXY, PORTS[account]
        with within(name_of(host)):
            super().__init__(self, user=user or account.lower())
        self.subscribe(b">")


class OverTls(Client):
    """A client of an account that begins TLS when it dials, by a name. It has a subscription to everything."""

    def __init__(self, net, account, name=None):
        self.address = PROXY, 4443
        with within(name_of(PROXY)):
            super().__init__(self, connect=None)
        context = ssl.create_default_context(cafile=net.room / "cert.pem")
        self.socket = context.wrap_socket(self.socket, server_hostname=host_of(name or account))
        self.line(b"INFO ")
        self.send(self.connecting(account.lower()))
        self.ping()
        self.subscribe(b">")


class OverLibnats:
    """A tenant's client over libnats, through the proxy. It has a subscription to everything."""

    def __init__(self, client, account):
        self.account, name, self.lines = account, account.lower(), []
        line = ["ip", "netns", "exec", name_of(PROXY), client, f"nats://{name}:{name}@{PROXY}:{PORTS[account]}"]
        self.process = subprocess.Popen(line, stdin=subprocess.PIPE, stdout=subprocess.PIPE, text=True)
        threading.Thread(target=self._listen, daemon=True).start()

    def _listen(self):
        for line in self.process.stdout:
            self.lines.append(line)

    def publish(self, text):
        self.process.stdin.write(f"{text}\n")
        self.process.stdin.flush()

    def words(self, begun):
        """Returns the lines from this one on, but for messages of the clients of these checks, which publish numbers."""
        return [it for it in map(str.rstrip, self.lines[begun:]) if not it[-1].isdigit()]

    def waits_for(self, *lines):
        """Waits until it has printed these lines behind each other, among others."""
        def came():
            rest = iter([*self.lines])
            return all(f"{it}\n" in rest for it in lines)

        wait_for(came, f"{lines} of {self.account}; there are {self.lines}", SOON)

    def __enter__(self):
        return self

    def __exit__(self, *_):
        self.process.kill()
        self.process.wait()


def connected(account, user=None):
    """Connects a tenant as soon as its server takes it."""
    return made(account, lambda: Tenant(account, user))


def made(account, make):
    """Returns a client of an account as soon as one can be made."""
    found = []

    def tries():
        with contextlib.suppress(Failed, OSError):
            found.append(make())
        return found

    wait_for(tries, f"a client of {account} is served", SOON)
    return found[0]


def publishes(tenants, account, wanted):
    """Has a tenant publish, and shows that exactly these see it, each under its subject."""
    text = b"%d" % time.monotonic_ns()
    tenants[account].send(b"PUB news.x %d\r\n%b\r\n" % (len(text), text))
    for name, it in tenants.items():
        if name in wanted:
            got = it.message()
            want(got == (wanted[name], b"1", None, text), f"{name} got {got}")
    for name, it in tenants.items():
        it.ping()
        want(not it.got, f"{name} got {bytes(it.got)}")


def all_publish(tenants, more=None):
    """Shows whom each tenant's message reaches: itself, and TWO from ONE; `more` beside it from THREE."""
    for account in tenants:
        wanted = {account: b"news.x"}
        wanted |= {"TWO": b"one.news.x"} if account == "ONE" else {}
        wanted |= more or {} if account == "THREE" else {}
        publishes(tenants, account, wanted)


def is_closed(it, limit=SOON):
    it.socket.settimeout(limit)
    it.rest()


@contextlib.contextmanager
def network(program, divided=1, is_named=False):
    with tempfile.TemporaryDirectory() as room:
        net = Net(program, room, divided, is_named)
        try:
            net.begin()
            net.install(policy())
            yield net, {it: connected(it) for it in PORTS}
        finally:
            net.close()


@contextlib.contextmanager
def each_over_libnats():
    """A client over libnats of each account, connected."""
    with tempfile.TemporaryDirectory() as room, contextlib.ExitStack() as stack:
        client = over_libnats("tenant", room)
        clients = {it: stack.enter_context(OverLibnats(client, it)) for it in PORTS}
        for it in clients.values():
            it.waits_for("connected")
        yield clients


def each_publishes(clients, joined):
    """Has each client over libnats publish, and shows that exactly those get it that are to, under their subjects."""
    begun = {name: len(it.lines) for name, it in clients.items()}
    wanted = {name: {f"news.x {text}-{name}" for text in ("one", "end")} for name in clients}
    across = {"TWO": "ONE", **({"FOUR": "THREE"} if joined else {})}
    for name, exporter in across.items():
        wanted[name] |= {f"{exporter.lower()}.news.x {text}-{exporter}" for text in ("one", "end")}
    for text in ("one", "end"):
        for name, it in clients.items():
            it.publish(f"{text}-{name}")
        for name, it in clients.items():
            it.waits_for(*(line for line in sorted(wanted[name]) if f" {text}-" in line and name in line))
    for name, it in clients.items():
        wait_for(lambda: len(it.words(begun[name])) >= len(wanted[name]), f"all of {name}; there are {it.lines}", SOON)
        got = it.words(begun[name])
        want(sorted(got) == sorted(wanted[name]), f"{name} got {got}, and not {wanted[name]}")


def are_disconnected(clients, *names):
    """Shows that of the clients over libnats these were disconnected, once, and no other."""
    for name, it in clients.items():
        want(it.lines.count("disconnected\n") == (name in names), f"{name}: {it.lines}")


def apart(program, divide):
    """A reload of one set leaves the connections of the others, libnats' too, and their messages stay among themselves"""
    with network(program) as (net, tenants), each_over_libnats() as clients:
        guest = connected("THREE", "guest")
        all_publish(tenants)
        net.install(policy(gone=True))
        # (what THREE publishes reaches its guest too)
        guest.socket.settimeout(SOON)
        want(guest.rest().endswith(b"-ERR 'Authorization Violation'\r\n"), "the guest isn't sent away")
        all_publish(tenants)
        each_publishes(clients, joined=False)
        are_disconnected(clients)


def joins(program, divide):
    """An import that joins two sets moves the clients of one, by a reconnect, and no message reaches a wrong tenant"""
    with network(program) as (net, tenants):
        net.install(policy(joined=True))
        is_closed(tenants["FOUR"])
        want(set(net.servers) == {"natsd@ONE", "natsd@THREE"}, f"there are {set(net.servers)}")
        tenants["FOUR"] = connected("FOUR")
        all_publish(tenants, {"FOUR": b"three.news.x"})
        net.install(policy())
        is_closed(tenants["FOUR"])
        tenants["FOUR"] = connected("FOUR")
        all_publish(tenants)


def moves(program, divide):
    """Clients over libnats connect again by themselves where a join moves them, and no other client notices"""
    with network(program) as (net, _), each_over_libnats() as clients:
        each_publishes(clients, joined=False)
        net.install(policy(joined=True))
        clients["FOUR"].waits_for("connected", "disconnected", "connected")
        each_publishes(clients, joined=True)
        are_disconnected(clients, "FOUR")
    return "one of four is moved"


def drains(program, divide):
    """A server that drains lets no client in and keeps all that it has, until its stop; some are older than a reload of HAProxy"""
    with network(program) as (net, tenants):
        net.replace_proxy()
        newer = connected("ONE")
        net.tells_proxy(DRAIN)
        all_publish(tenants)
        newer.message()
        try:
            Tenant("ONE")
        except (Failed, OSError):
            pass
        else:
            want(False, "another client is let in")
        # (the process that has the older ones isn't told)
        net.tells_proxy("shutdown sessions server ONE/natsd")
        is_closed(newer)
        all_publish(tenants)
        net.stop("natsd@ONE")
        for it in ("ONE", "TWO"):
            is_closed(tenants.pop(it))
        all_publish(tenants)
        net.start(HOSTS["ONE"], "natsd@ONE")
        net.tells_proxy(DRAIN.replace("drain", "ready"))
        tenants |= {it: connected(it) for it in ("ONE", "TWO")}
        all_publish(tenants)
        net.tells_proxy(DRAIN)
        net.replace_proxy()
        tenants["ONE"] = connected("ONE")


def dies(program, divide):
    """A host that vanishes takes its set alone, and has its clients again once it is back; some are older than a reload"""
    with network(program, divided=4) as (net, tenants), each_over_libnats() as clients:
        net.replace_proxy()
        newer = connected("ONE")
        net.link(HOSTS["ONE"], "down")
        begin, took = time.monotonic(), []
        # (HAProxy's older process doesn't look at the server: one of its clients has bytes that wait for it, the others are silent)
        tenants["TWO"].send(b"PING\r\n")
        for it, limit in ((newer, LOOKS + 3), (tenants.pop("ONE"), SOON), (tenants.pop("TWO"), SOON)):
            is_closed(it, limit)
            took.append(f"{time.monotonic() - begin:.1f} s")
        for it in ("ONE", "TWO"):
            clients[it].waits_for("connected", "disconnected")
        all_publish(tenants)
        net.link(HOSTS["ONE"], "up")
        tenants |= {it: connected(it) for it in ("ONE", "TWO")}
        all_publish(tenants)
        for it in ("ONE", "TWO"):
            clients[it].waits_for("connected", "disconnected", "connected")
        each_publishes(clients, joined=False)
        are_disconnected(clients, "ONE", "TWO")
    return f"its clients are told after {', '.join(took)}, the older ones in a quarter of HAProxy's time"


def sockets(net, account):
    """Returns how many connections the server of an account has, of HAProxy's looks too."""
    line = ["ip", "netns", "exec", name_of(HOSTS[account]), "ss", "-Htn", "state", "established"]
    return len(subprocess.run(line, capture_output=True, text=True, check=True).stdout.splitlines())


def vanishes(program, divide):
    """A client whose host vanishes, silent or sent to, is closed by HAProxy, in a tenth of its times here"""
    with network(program, divided=10) as (net, tenants):
        before, took = sockets(net, "FOUR"), []
        for is_sent_to in (False, True):
            far = Tenant("FOUR", host=FAR)
            wait_for(lambda: sockets(net, "FOUR") > before, "one more connection", SOON)
            net.link(FAR, "down")
            begin = time.monotonic()
            if is_sent_to:
                publishes(tenants, "FOUR", {"FOUR": b"news.x"})
            wait_for(lambda: sockets(net, "FOUR") <= before, "its connection is closed", SOON)
            took.append(f"{time.monotonic() - begin:.1f} s")
            net.link(FAR, "up")
            far.close()
        all_publish(tenants)
    return f"after {' and '.join(took)}"


def by_names(program, divide):
    """Clients of TLS reach their tenants' servers by names at one port, and a name of nobody reaches none"""
    with network(program, is_named=True) as (net, tenants):
        for it in HOSTS:
            tenants.pop(it).close()
            tenants[it] = OverTls(net, it)
        all_publish(tenants)
        try:
            OverTls(net, "ONE", name="none")
        except (Failed, OSError):
            pass
        else:
            want(False, "a name of nobody reaches somebody")
        net.install(policy(joined=True))
        with contextlib.suppress(OSError):
            is_closed(tenants["FOUR"])
        tenants["FOUR"] = made("FOUR", lambda: OverTls(net, "FOUR"))
        all_publish(tenants, {"FOUR": b"three.news.x"})
    return "three names, one of them moved"


if __name__ == "__main__":
    skip_if(lacks_namespaces(), lacks("haproxy", "haproxy"), lacks("socat", "socat"), lacks("openssl", "openssl"),
            lacks_libnats())
    run(__doc__, apart, joins, moves, drains, dies, vanishes, by_names)

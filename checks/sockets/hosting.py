"""What checks need of the host: network namespaces in the place of other hosts, programs of Debian's packages, and clients over
libnats."""

import contextlib
import ctypes
import fcntl
import os
import pathlib
import shutil
import subprocess
import sys
import tempfile
import time

from clients import Skipped, want

CLONE_NEWNET = 0x40000000
NOWHERE = dict.fromkeys(("stdin", "stdout", "stderr"), subprocess.DEVNULL)


def ip(*words, check=True):
    """Runs a command of iproute2."""
    return subprocess.run(["ip", *words], check=check, capture_output=True, text=True)


@contextlib.contextmanager
def within(name):
    """Sockets that are made here, by this thread, are of this namespace."""
    libc = ctypes.CDLL(None, use_errno=True)
    with open("/proc/thread-self/ns/net") as old, open(f"/run/netns/{name}") as new:
        want(libc.setns(new.fileno(), CLONE_NEWNET) == 0, f"setns: {os.strerror(ctypes.get_errno())}")
        try:
            yield
        finally:
            libc.setns(old.fileno(), CLONE_NEWNET)


def lacks_namespaces():
    """Returns why no network namespace can be made here, or nothing if one can."""
    name = f"natsd-{os.getpid()}-try"
    try:
        found = ip("netns", "add", name, check=False)
    except OSError as error:
        return str(error)
    ip("netns", "delete", name, check=False)
    return found.stderr.strip() if found.returncode else ""


def install(*packages):
    """Installs packages of Debian's, if this user may. One script does so at a time: apt-get refuses a second update, and
    beside an update an install finds half of the lists."""
    how = [] if os.geteuid() == 0 else ["sudo", "-n"]
    words = [*how, "apt-get", "-o", "DPkg::Lock::Timeout=120", "install", "-y", "--no-install-recommends", *packages]
    with contextlib.suppress(FileNotFoundError), open(__file__) as it:
        fcntl.flock(it, fcntl.LOCK_EX)
        if subprocess.run(words, **NOWHERE).returncode:
            subprocess.run([*how, "apt-get", "update"], **NOWHERE)
            subprocess.run(words, **NOWHERE)


def lacks(program, package):
    """Returns that there is no such program, after an attempt to install its package, or nothing if there is one."""
    os.environ["PATH"] += os.pathsep + "/usr/sbin"
    if not shutil.which(program):
        install(package)
    return "" if shutil.which(program) else f"there is no {program}, and {package} can't be installed"


# An index of apt's own, so that a fetched package is the same on each host, and no setting of the host changes.
INDEX = """Types: deb deb-src
URIs: http://deb.debian.org/debian
Suites: bookworm
Components: main
Signed-By: /usr/share/keyrings/debian-archive-keyring.gpg
"""
SETTINGS = """Dir::Etc::SourceList "{0}/index.sources";
Dir::Etc::SourceParts "/dev/null";
Dir::State::Lists "{0}/lists";
Dir::Cache "{0}/cache";
APT::Sandbox::User "root";
Acquire::Languages "none";
Acquire::Retries "0";
Acquire::http::Timeout "10";
"""


def lacks_source(package, folder, seconds=40):
    """Returns that a package of Debian 12 and its source can't be had, or nothing once `program` and `source` of a folder have
    them. Nothing is installed."""
    if folder.is_dir():
        return ""
    folder.parent.mkdir(parents=True, exist_ok=True)
    with tempfile.TemporaryDirectory(dir=folder.parent) as name:
        room, begin = pathlib.Path(name), time.monotonic()

        def run(*words):
            how = {"cwd": room, "env": {**os.environ, "APT_CONFIG": f"{room}/settings"}, **NOWHERE}
            subprocess.run(words, check=True, timeout=max(1, begin + seconds - time.monotonic()), **how)

        (room / "index.sources").write_text(INDEX)
        (room / "settings").write_text(SETTINGS.format(room))
        for it in ("lists/partial", "cache/archives/partial", "found/program", "found/source"):
            (room / it).mkdir(parents=True)
        try:
            run("apt-get", "update")
            run("apt-get", "download", package)
            run("apt-get", "source", "--download-only", package)
            for it in room.glob("*.deb"):
                run("dpkg-deb", "-x", it, "found/program")
            for it in room.glob("*.tar.*"):
                run("tar", "-xf", it, "-C", "found/source")
        except (OSError, subprocess.SubprocessError) as error:
            return f"{package} and its source can't be had: {error}"
        os.rename(room / "found", folder)
    return ""


def lacks_libnats():
    """Returns that nothing can be built against libnats, after an attempt to install it, or nothing if something can."""
    probe = ["sh", "-c", "echo '#include <nats/nats.h>' | cc -E -"]
    if subprocess.run(probe, **NOWHERE).returncode:
        install("libnats-dev")
    return "libnats-dev isn't here and can't be installed" if subprocess.run(probe, **NOWHERE).returncode else ""


def over_libnats(name, room):
    """Builds a client of checks/clients in a folder, and returns it."""
    source = pathlib.Path(__file__).resolve().parents[1] / "clients" / f"{name}.c"
    subprocess.run(["cc", "-O1", "-o", f"{room}/{name}", source, "-lnats", "-lpthread"], check=True)
    return f"{room}/{name}"


# Debian's packages of Go and nats.go, and where the second puts it.
NATS_GO = ("golang-go", "golang-github-nats-io-go-nats-dev")
GO_SOURCES = pathlib.Path("/usr/share/gocode")
# What was built of nats.go stays here for the next program.
GO_CACHE = pathlib.Path(__file__).resolve().parents[2] / "out" / "go"


def has_nats_go():
    return bool(shutil.which("go")) and (GO_SOURCES / "src/github.com/nats-io/nats.go").is_dir()


def lacks_nats_go():
    """Returns that nothing can be built against nats.go, after an attempt to install it, or nothing if something can."""
    if not has_nats_go():
        install(*NATS_GO)
    return "" if has_nats_go() else f"{' and '.join(NATS_GO)} aren't here and can't be installed"


def over_nats_go(text, room):
    """Builds a program over nats.go in a folder, and returns it."""
    source = pathlib.Path(room) / "main.go"
    source.write_text(text)
    settings = {"GO111MODULE": "off", "GOPATH": str(GO_SOURCES), "GOCACHE": str(GO_CACHE), "GOFLAGS": ""}
    subprocess.run(["go", "build", "-o", f"{room}/main", source], env={**os.environ, **settings}, check=True)
    return f"{room}/main"


def skip_check_if(reason):
    """Ends a check uncounted where there is a reason why it can't run."""
    if reason:
        raise Skipped(reason)


def skip_if(*reasons):
    """Ends the script without a count where there is a reason why it can't run."""
    for it in filter(None, reasons):
        print(f"skipped: {it}")
        print("0 passed, 0 failed")
        sys.exit(0)

"""Plays of tools/try-serve on devices whose addresses are names: they are looked up by a second process, which holds up nobody."""

import itertools
import os
import signal
import socket
import subprocess
import time

from serve_parts import Client, Service, until
from serve_plays import LIMIT, PROGRAM, OwnDevice, inverter, put, shown, site_text

GETENT = "/usr/bin/getent"
# a name that no system knows (RFC 2606)
UNKNOWN = "nowhere.invalid"
# how long a lookup takes that never ends, in seconds: by this number its process is known
LONG = f"100{os.getpid()}"
# each script has a file of its own, since one that still runs can't be written
NUMBERS = itertools.count()


class NamedDevice(OwnDevice):
    """One at the first address of a name."""

    def __init__(self, name, units):
        self.host = subprocess.run([GETENT, "ahosts", "--", name], capture_output=True, text=True, check=True).stdout.split()[0]
        super().__init__(units)

    def listen(self):
        return socket.create_server((self.host, self.port), family=socket.AF_INET6 if ":" in self.host else socket.AF_INET)


def named_site(folder, addresses):
    """A site of three devices at these addresses, each as unit 1 there, and its program."""
    keys = [f'remote_unit = 1\naddress = "{it}"\n' for it in addresses]
    return put(folder, "named.toml", site_text(keys)), put(folder, "shows.il", PROGRAM)


def field(number, name):
    """What a file of a process says; nothing where it is gone."""
    try:
        with open(f"/proc/{number}/{name}", encoding="utf-8") as it:
            return it.read()
    except OSError:
        return ""


def processes():
    return [int(it) for it in os.listdir("/proc") if it.isdigit()]


def children(process):
    """The processes that a service started and whose end it didn't take yet."""
    return [it for it in processes() if field(it, "stat").rpartition(")")[2].split()[1:2] == [str(process.pid)]]


def sleepers():
    """The lookups that never end, whoever their parent is now."""
    return [it for it in processes() if LONG in field(it, "cmdline").split("\0") and "sleep" in field(it, "cmdline")]


def end_sleepers():
    for it in sleepers():
        os.kill(it, signal.SIGKILL)


def play_names(counts, program, folder):
    """A name leads to its device, once and again; one that nobody knows is a connection that can't be made."""
    device = NamedDevice("localhost", {1: inverter(1001)})
    site, code = named_site(folder, [f"localhost:{device.port}", f"{UNKNOWN}:502", f"-x.{UNKNOWN}:502"])
    service = Service(program, [site, code, "--listen", "127.0.0.1:0", "--every", "200"])
    client = Client(service.port())
    counts.note("a device is found by its name", service.has(r"\S+ device inv1 found 1 103 123"), service.lines)
    counts.note("it is read", until(lambda: shown(client), [1001, 0xFFFF, 0xFFFF]) == [1001, 0xFFFF, 0xFFFF], shown(client))
    for name in ("inv2", "inv3"):
        counts.note(f"{name} has no known name", service.has(rf"\S+ device {name} lost Down"), service.lines)
    behind = len(service.lines)
    device.gone()
    counts.note("it is lost", service.has(r"\S+ device inv1 lost Down", behind=behind), service.lines[behind:])
    device.open()
    counts.note("and found again by its name", service.has(r"\S+ device inv1 found 1 103 123", 10, behind), service.lines[behind:])
    counts.note("no process is left", until(lambda: children(service.process), []) == [], children(service.process))
    opened = service.descriptors()
    time.sleep(1)
    counts.note("no descriptor is left open", until(service.descriptors, opened) <= opened, (opened, service.descriptors()))
    service.end()
    device.gone()


def play_no_process(counts, program, folder):
    """Where no address has a name, no process is started."""
    device = OwnDevice({1: inverter(1001)})
    site, code = named_site(folder, [device.address(), "127.0.0.1:9", "[::1]:9"])
    trace = f"{folder}/trace"
    words = ["serve", site, code, "--listen", "127.0.0.1:0", "--every", "100", "--scans", "5"]
    try:
        ran = subprocess.run(["strace", "-f", "-qq", "-e", "trace=execve", "-o", trace, program, *words], capture_output=True, text=True, check=False, timeout=20)
    except FileNotFoundError:
        ran = None
    if ran is None or "ptrace" in ran.stderr:
        print("skipped: that no process is started for an address, since strace can't be used here")
    else:
        with open(trace, encoding="utf-8") as it:
            starts = [line for line in it if "execve(" in line]
        counts.note("no process for an address", len(starts) == 1 and ran.returncode == 0 and device.came == 1, (starts, ran))
    device.gone()


def namespace(folder, lookup, mode=0o755):
    """The words before a program that has a script in place of the lookup of names."""
    path = put(folder, f"getent{next(NUMBERS)}", f"#!/bin/sh\n{lookup}\n")
    os.chmod(path, mode)
    return ["unshare", "-rm", "sh", "-c", f'mount --bind "{path}" {GETENT} && exec "$@"', "sh"]


def no_namespace(folder):
    """Why no script can stand in place of the lookup of names here; nothing where one can."""
    try:
        ran = subprocess.run([*namespace(folder, "exit"), "true"], capture_output=True, text=True, check=False)
    except FileNotFoundError:
        return "there is no unshare"
    return ran.stderr.strip() if ran.returncode else ""


class OtherNames(Service):
    """A service with a script in place of the lookup of names."""

    def __init__(self, program, folder, lookup, words, mode=0o755):
        self.before = namespace(folder, lookup, mode)
        super().__init__(program, words)

    def command(self, program, words):
        return [*self.before, program, "serve", *words]


def play_silent_names(counts, program, folder):
    """A lookup that never ends: clients and other devices don't wait for it, and its time is that of the dial."""
    device = OwnDevice({1: inverter(1001)})
    site, code = named_site(folder, [device.address(), "one.invalid:502", "two.invalid:502"])
    words = [site, code, "--listen", "127.0.0.1:0", "--every", "1000", "--timeout", "400", "--state", f"{folder}/state"]
    service = OtherNames(program, folder, f"exec sleep {LONG}", words)
    client = Client(service.port())
    counts.note("its process is there", until(lambda: len(children(service.process)), 2) == 2, children(service.process))
    began = time.monotonic()
    gone = until(lambda: children(service.process), [], 1.0) == []
    took = time.monotonic() - began
    counts.note("it is gone after the timeout", gone and took < 0.6, took)
    for name in ("inv2", "inv3"):
        counts.note(f"{name} is lost", service.has(rf"\S+ device {name} lost Down"), service.lines)
    counts.note("another device is found", service.has(r"\S+ device inv1 found 1 103 123"), service.lines)
    seen = 0
    for _ in range(50):
        client.read(LIMIT)
        seen += len(sleepers()) > 0
        time.sleep(0.1)
    counts.note("names are looked up again", seen > 1, seen)
    counts.note("no answer is late", client.longest < 0.3, client.longest)
    counts.note("the other device is read", shown(client)[0] == 1001, shown(client))
    counts.note("no name is looked up", until(sleepers, [], 10) == [])
    counts.note("then names are", until(lambda: sleepers() != [], True, 20))
    service.end()
    counts.note("a lookup outlives a service that is killed", sleepers() != [])
    service = Service(program, words)
    counts.note("and keeps no lock of its file", service.has("listening .*"), service.lines)
    service.end()
    end_sleepers()
    device.gone()


def play_odd_lookups(counts, program, folder):
    """Lookups that print what is no address, or without end, and one that can't be started."""
    device = OwnDevice({1: inverter(1001)})
    site, code = named_site(folder, [f"named.invalid:{device.port}"] * 3)
    words = [site, code, "--listen", "127.0.0.1:0", "--every", "200"]
    for lookup, wanted, mode in (
        ("exec yes", "lost Down", 0o755),
        ("exec cat /dev/zero", "lost Down", 0o755),
        ("echo 127.0.0.1.9 STREAM x", "lost Down", 0o755),
        ("printf 127.0.0.1", "lost Down", 0o755),
        ("exit 2", "lost Down", 0o755),
        ("echo '127.0.0.1 STREAM x'", "lost Down", 0o644),
        ("echo '127.0.0.1       STREAM x'; echo '192.0.2.1       STREAM x'", "found 1 103 123", 0o755),
        ("echo '::ffff:127.0.0.1 STREAM x'", "found 1 103 123", 0o755),
    ):
        service = OtherNames(program, folder, lookup, words, mode)
        counts.note(lookup, service.has(rf"\S+ device inv1 {wanted}"), service.lines)
        counts.note("its process ended", until(lambda: children(service.process), []) == [], children(service.process))
        service.end()
    device.gone()


def play_end(counts, program, folder):
    """A service that ends by itself ends the lookups that are under way: one of these ends comes amid one."""
    site, code = named_site(folder, ["one.invalid:502", "two.invalid:502", "127.0.0.1:9"])
    words = [site, code, "--listen", "127.0.0.1:0", "--every", "100"]
    services = [OtherNames(program, folder, f"exec sleep {LONG}", [*words, "--scans", str(scans)]) for scans in range(1, 17)]
    counts.note("they end", [it.process.wait(20) for it in services] == [0] * len(services))
    counts.note("no lookup outlives its service", sleepers() == [], sleepers())


def with_lookups(play):
    """A play with a script in place of the lookup of names, where one can be; no script is left after it."""

    def tried(counts, program, folder):
        if cause := no_namespace(folder):
            print(f"skipped: {play.__name__}: {cause}")
            return
        try:
            play(counts, program, folder)
        finally:
            end_sleepers()

    tried.__name__ = play.__name__
    return tried


PLAYS = (play_names, play_no_process, *map(with_lookups, (play_silent_names, play_odd_lookups, play_end)))

"""Plays of tools/try-serve: what `serve` tells of its start, and of its clients."""

import calendar
import hashlib
import json
import re
import struct
import subprocess
import time

from serve_parts import TOP, Client, Service, text_of, until
from serve_plays import put

TIME = r"\d{4}-\d\d-\d\dT\d\d:\d\d:\d\dZ"
SITE, CODE, PLANT = (f"{TOP}/examples/{it}" for it in ("site.toml", "limiter.il", "plant.toml"))
# the words of a service whose devices don't answer
WORDS = [SITE, CODE, "--devices", "127.0.0.1:9", "--listen", "127.0.0.1:0", "--every", "100"]
# the register that clients set, by a percentage; the first one of the gateway's map
LIMIT, BASE = 40127, 40000
# a model of a maker's own after the others, with a set point of two registers and another point; where they stand, and the end
OWN_MODEL = """{"id": 64001, "group": {"points": [
  {"name": "ID", "type": "uint16", "size": 1},
  {"name": "L", "type": "uint16", "size": 1},
  {"name": "Set", "type": "uint32", "size": 2, "access": "RW"},
  {"name": "Got", "type": "uint16", "size": 1}]}}
"""
SET, GOT, END = 40150, 40152, 40153
SET_TAG = """
[[tag]]
name = "amount"
access = "set"
model = 64001
point = "Set"
type = "UDINT"
exponent = 0
low = 0
high = 1000
"""


def digits(path):
    with open(path, "rb") as it:
        return hashlib.sha256(it.read()).hexdigest()[:12]


def is_near(text):
    """Whether a time of day is that of a minute ago, or later, and not in the future."""
    told = calendar.timegm(time.strptime(text, "%Y-%m-%dT%H:%M:%SZ"))
    return time.time() - 60 <= told <= time.time() + 1


def play_start(counts, program, folder):
    """The first line says which program runs since when, and the status file too."""
    status = f"{folder}/status"
    service = Service(program, [*WORDS, "--status-file", status])
    service.port()
    told = re.fullmatch(rf"started ({TIME}) sunsite (\S+) site (\w+) program (\w+)", service.lines[0])
    counts.note("the first line", told and service.lines.count(service.lines[0]) == 1, service.lines)
    counts.note("the time of the start", is_near(told[1]), told[1])
    shown = subprocess.run([program, "--version"], capture_output=True, text=True, check=True).stdout
    counts.note("the version is that of --version", shown.startswith(f"sunsite {told[2]} "), (shown, told[2]))
    counts.note("the digits of both texts", (told[3], told[4]) == (digits(SITE), digits(CODE)), told[0])
    seen = until(lambda: json.loads(text_of(status) or "{}"), None, 0.5)
    started = dict(zip(("time", "version", "site", "program"), told.groups()))
    counts.note("the status file has the same", seen["started"] == started, seen["started"])
    counts.note("its time", is_near(seen["time"]) and seen["time"] >= told[1], (seen["time"], told[1]))
    counts.note("lines begin with the seconds", service.has(r"\d+\.\d{3} device inv1 lost \w+"), service.lines)
    service.end()


def play_times(counts, program, folder):
    """With --times utc each line begins with the time of day, and those that had no time have none."""
    service = Service(program, [*WORDS, "--times", "utc", "--verbose"])
    counts.note("a line's time of day", service.has(rf"{TIME} device inv1 lost \w+"), service.lines)
    counts.note("the line of a scan", service.has(r"scan 1 steps .*"), service.lines)
    dated = [it.split()[0] for it in service.lines if re.match(TIME, it)]
    counts.note("it is the time", dated and all(is_near(it) for it in dated), dated)
    counts.note("no line begins with seconds", not any(re.match(r"\d+\.\d{3} ", it) for it in service.lines), service.lines)
    service.end()


def play_shown(counts, program, folder):
    """A sum that clients may not be shown is told at the start."""
    site = f"{folder}/shown.toml"
    with open(SITE, encoding="utf-8") as it, open(site, "w", encoding="utf-8") as made:
        made.write(it.read().replace("high = 16000", "high = 32000"))
    ran = subprocess.run([program, "serve", site, *WORDS[1:], "--scans", "1"], capture_output=True, text=True, check=False, timeout=20)
    counts.note("a sum that may not be shown", ran.returncode == 0 and "warning: [[served]] 1: the sum may reach 64000" in ran.stderr, ran)


def name_of(client):
    return "%s:%d" % client.socket.getsockname()


def told_of(service, word):
    """The lines so far, without their time, that begin with a word."""
    lines = [it.split(" ", 1)[1] for it in service.lines if " " in it]
    return [it for it in lines if it.startswith(word)]


def play_set(counts, program, folder):
    """Each write that changes a set value is told, with who made it, in order, before it is acknowledged."""
    words = [*WORDS, "--state", f"{folder}/set-state"]
    service = Service(program, words)
    client = Client(service.port())
    name = name_of(client)
    sets = lambda: told_of(service, "set ")
    client.write(LIMIT, 30)
    wanted = [f"set target 30 was unset by {name}"]
    counts.note("who set what", until(sets, wanted) == wanted, service.lines)
    client.write(LIMIT, 30)
    client.ask(struct.pack(">BHHBH", 16, LIMIT, 1, 2, 40))
    wanted.append(f"set target 40 was 30 by {name}")
    counts.note("what was set before", until(sets, wanted) == wanted, service.lines)
    frames = [struct.pack(">HHHBBHH", n, 0, 6, 1, 6, LIMIT, it) for n, it in enumerate((50, 60, 50))]
    client.socket.sendall(b"".join(frames))
    client.take(36)
    wanted += [f"set target {now} was {was} by {name}" for was, now in ((40, 50), (50, 60), (60, 50))]
    counts.note("each of several writes at once", until(sets, wanted) == wanted, service.lines)
    for byte in struct.pack(">HHHBBHH", 9, 0, 6, 1, 6, LIMIT, 70):
        client.socket.sendall(bytes([byte]))
        time.sleep(0.002)
    client.take(12)
    wanted.append(f"set target 70 was 50 by {name}")
    counts.note("a write byte by byte", until(sets, wanted) == wanted, service.lines)
    for n in range(20):
        client.write(LIMIT, n)
        if len(sets()) < len(wanted) + n + 1:
            time.sleep(0.005)
    counts.note("as many lines as changes", until(lambda: len(sets()), len(wanted) + 20) == len(wanted) + 20, service.lines)
    service.end()
    service = Service(program, words)
    client = Client(service.port())
    client.write(LIMIT, 80)
    wanted = [f"set target 80 was 19 by {name_of(client)}"]
    counts.note("what was set before the start isn't told, and is known", until(lambda: told_of(service, "set "), wanted) == wanted, service.lines)
    service.end()


def play_refused(counts, program, folder):
    """A write that is refused is told, with what it would have set where that is known."""
    service = Service(program, WORDS)
    port = service.port()
    client, stranger = Client(port), Client(port, "127.0.0.2")
    name, strange = name_of(client), name_of(stranger)
    stranger.write(LIMIT, 90)
    client.write(LIMIT, 101)
    client.write(1, 5)
    client.ask(struct.pack(">BHHBHH", 16, LIMIT - 1, 2, 4, 1, 0xFFFF))
    client.ask(struct.pack(">BHHBH", 16, LIMIT, 2, 2, 7))
    client.ask(struct.pack(">BHH", 6, LIMIT, 8), unit=9)
    client.ask(b"\x06\x01")
    client.read(1)
    wanted = [
        f"client {strange} refused 6 {LIMIT} 1 target 90 0..100",
        f"client {name} refused 6 {LIMIT} 3 target 101 0..100",
        f"client {name} refused 6 1 2 at 1",
        f"client {name} refused 16 {LIMIT - 1} 2 at {LIMIT - 1} 123 Conn",
        f"client {name} refused 16 {LIMIT} 3",
        f"client {name} refused 6 {LIMIT} 11",
        f"client {name} refused 6 - 3",
    ]
    refused = lambda: [it for it in told_of(service, "client ") if " refused " in it]
    counts.note("writes that are refused", until(refused, wanted) == wanted, service.lines)
    counts.note("nothing is set", not told_of(service, "set "), service.lines)
    service.end()


def block_words(folder):
    """The words of a service of the site with the block that masters write at once, as the document has it, and with the own model."""
    with open(f"{TOP}/docs/FILES.md", encoding="utf-8") as it:
        block = re.search(r"(?s)\n```toml block\.toml\n(.*?)```\n", it.read())[1]
    with open(SITE, encoding="utf-8") as it:
        site = it.read().replace("models = [1, 103, 123]", "models = [1, 103, 123, 64001]")
    return [put(folder, "block.toml", site + block + SET_TAG), *WORDS[1:], "--def", put(folder, "own.json", OWN_MODEL)]


def play_registers(counts, program, folder):
    """A write of registers that no client may write names the first of them, and the point there; a block of set points is done."""
    service = Service(program, block_words(folder))
    client = Client(service.port())
    name = name_of(client)
    numbers = [30, 0, 60, 5, 1, 0, 0]
    many = lambda first, count: client.ask(struct.pack(f">BHHB{count}H", 16, first, count, 2 * count, *numbers[:count]))
    counts.note("a block at once", many(LIMIT, 5) == struct.pack(">BHH", 16, LIMIT, 5), service.lines)
    wanted = [f"set {tag} {number} was unset by {name}" for tag, number in zip(("target", "window", "reversion", "ramp", "enabled"), numbers)]
    sets = lambda: told_of(service, "set ")
    counts.note("all of it is set", until(sets, wanted) == wanted, service.lines)
    for first, count in ((LIMIT, 6), (LIMIT - 2, 7), (LIMIT + 4, 4), (SET, 1), (SET + 1, 1), (SET, 3), (BASE, 2), (END - 1, 3), (END, 1), (END + 2, 1)):
        many(first, count)
    wanted = [
        f"{LIMIT} 2 at {LIMIT + 5} 123 OutPFSet",
        f"{LIMIT - 2} 2 at {LIMIT - 2} 123 Conn_RvrtTms",
        f"{LIMIT + 4} 2 at {LIMIT + 5} 123 OutPFSet",
        f"{SET} 2 at {SET} 64001 Set",
        f"{SET + 1} 2 at {SET + 1} 64001 Set",
        f"{SET} 2 at {GOT} 64001 Got",
        f"{BASE} 2 at {BASE}",
        f"{END - 1} 2 at {GOT} 64001 Got",
        f"{END} 2 at {END}",
        f"{END + 2} 2 at {END + 2}",
    ]
    wanted = [f"client {name} refused 16 {it}" for it in wanted]
    refused = lambda: [it for it in told_of(service, "client ") if " refused " in it]
    counts.note("the register at fault", until(refused, wanted) == wanted, service.lines)
    counts.note("nothing of it is set", len(sets()) == 5, service.lines)
    service.end()


def play_flood(counts, program, folder):
    """An address has more writes refused in a minute than are told: ten of them are, the others counted, once the minute is over."""
    service, began = Service(program, WORDS), time.monotonic()
    for _ in range(2):
        client = Client(service.port())
        for _ in range(6):
            client.write(LIMIT, 200)
        client.close()
    other = Client(service.port(), "127.0.0.3")
    other.write(LIMIT, 7)
    other.close()
    time.sleep(50)
    told = lambda: [it for it in told_of(service, "client 127.0.0.1:") if " refused 6 " in it]
    counts.note("ten refusals in a minute", len(told()) == 10, service.lines)
    counts.note("another address has its own", len([it for it in told_of(service, "client 127.0.0.3:") if " refused 6 " in it]) == 1, service.lines)
    counts.note("the count comes later", time.monotonic() - began > 59 or not told_of(service, "refused "), service.lines)
    counts.note("the others are counted", service.has(r"\d+\.\d{3} refused 2 more from 127\.0\.0\.1", 65 + began - time.monotonic()), service.lines)
    counts.note("they are told once", len(told_of(service, "refused ")) == 1, service.lines)
    client = Client(service.port())
    client.write(LIMIT, 200)
    counts.note("and the next minute has ten of its own", until(lambda: len(told()), 11) == 11, service.lines)
    service.end()


def play_moves(counts, program, folder):
    """A client that connects for each request is told to have come once, and to have left once."""
    for more, wanted in (([], 1), (["--verbose"], 50)):
        service = Service(program, [*WORDS, *more])
        port = service.port()
        for _ in range(50):
            client = Client(port)
            client.read(LIMIT)
            client.close()
        moves = lambda word: sum(it.endswith(word) for it in told_of(service, "client 127.0.0.1:"))
        seen = until(lambda: (moves(" joined"), moves(" left")), (wanted, wanted))
        time.sleep(0.1)
        counts.note(f"50 connections have {wanted} lines of each kind", seen == (moves(" joined"), moves(" left")) == (wanted, wanted), service.lines)
        other = Client(port, "127.0.0.2")
        counts.note("another address has lines of its own", service.has(rf"\S+ client {re.escape(name_of(other))} joined"), service.lines)
        service.end()


PLAYS = (play_start, play_times, play_shown, play_set, play_refused, play_registers, play_moves)

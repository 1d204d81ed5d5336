"""Plays of tools/try-serve on simulated devices that answer late, by `slow` of the plant file.

  tools/serve_slow_plays.py [PROGRAM]     these plays alone
"""

import socket
import struct
import subprocess
import sys
import time

sys.dont_write_bytecode = True
from serve_parts import PLANT, TOP, Client, Service, try_alone

# a register that is read, and the limit that is written
MARK, LIMIT = 40000, 40124 + 3
LATE = 0.3


class Simulator:
    """A simulated plant behind a port, for some connections at once."""

    def __init__(self, program, folder, name, text, connections):
        path = f"{folder}/{name}.toml"
        with open(path, "w", encoding="utf-8") as it:
            it.write(text)
        words = [program, "simulate", path, "--connections", str(connections)]
        self.process = subprocess.Popen(words, stdout=subprocess.PIPE, text=True)
        self.port = int(self.process.stdout.readline().split()[1])

    def end(self):
        self.process.kill()
        self.process.wait()


def device(unit, slow=None):
    """An inverter, that answers so many milliseconds late."""
    keys = f"unit = {unit}\n" if slow is None else f"unit = {unit}\nslow = {slow}\n"
    return PLANT.format(watts=4000).replace("unit = 1\n", keys)


def send(client, *pdus):
    """Sends requests, each to its unit, without a wait for the answers."""
    frames = b""
    for unit, pdu in pdus:
        client.number += 1
        frames += struct.pack(">HHHB", client.number, 0, len(pdu) + 1, unit) + pdu
    client.socket.sendall(frames)


def reply(client):
    """The next answer: its number, its unit and its PDU."""
    number, _, length, unit = struct.unpack(">HHHB", client.take(7))
    return number, unit, client.take(length - 1)


def read(addr):
    return struct.pack(">BHH", 3, addr, 1)


def write(addr, value):
    return struct.pack(">BHH", 6, addr, value)


def timed(call):
    began = time.monotonic()
    return call(), time.monotonic() - began


def play_answers(counts, program, folder):
    """A slow device holds up its own connection alone."""
    plant = Simulator(program, folder, "late", device(1, 300) + device(2), 4)
    slow, quick = Client(plant.port), Client(plant.port)
    marked = bytes([3, 2, 0x53, 0x75])
    counts.note("a quick device", quick.ask(read(MARK), 2) == marked and quick.longest < LATE, quick.longest)
    began = time.monotonic()
    send(slow, (1, read(MARK)))
    time.sleep(0.05)
    quick.longest = 0.0
    counts.note("it answers meanwhile", quick.ask(read(MARK), 2) == marked and quick.longest < LATE - 0.05, quick.longest)
    counts.note("the slow one answers", reply(slow) == (1, 1, marked))
    counts.note("and late", LATE <= time.monotonic() - began < 2, time.monotonic() - began)
    began = time.monotonic()
    send(slow, (1, read(MARK)), (2, read(MARK)), (1, read(MARK)), (2, read(MARK)))
    first, took = timed(lambda: [reply(slow) for _ in range(2)])
    counts.note("the quick one waits for the slow one before it", [it[:2] for it in first] == [(2, 1), (3, 2)] and took >= LATE, (first, took))
    rest = [reply(slow) for _ in range(2)]
    counts.note("each answer of the slow one is late", [it[:2] for it in rest] == [(4, 1), (5, 2)] and time.monotonic() - began >= 2 * LATE, (rest, time.monotonic() - began))
    play_changes(counts, plant, slow, quick)


def play_changes(counts, plant, slow, quick):
    """The plant changes when a request is taken, whether its answer goes out or not."""
    send(slow, (1, write(LIMIT, 300)))
    time.sleep(0.05)
    slow.close()
    counts.note("what was written is read, by a connection of its own", quick.ask(read(LIMIT), 1)[2:] == struct.pack(">H", 300))
    last = Client(plant.port)
    send(last, (1, read(LIMIT)))
    last.socket.shutdown(socket.SHUT_WR)
    counts.note("whoever sends no more gets what is late", reply(last) == (1, 1, struct.pack(">BBH", 3, 2, 300)))
    counts.note("and is closed then", last.socket.recv(1) == b"")
    quick.close()
    none = Client(plant.port)
    counts.note("a unit without a device isn't late", timed(lambda: none.ask(read(MARK), 7))[1] < LATE)
    none.close()
    counts.note("it ends after its connections", plant.process.wait(5) == 0)


def play_faults(counts, program, folder):
    """What is wrong with an answer comes late too."""
    fault = '[[fault]]\nrequest = 1\nkind = "stale"\ncount = 100\n\n[[fault]]\nrequest = 2\nkind = "cut"\nbytes = 0\n'
    plant = Simulator(program, folder, "wrong", device(1, 300) + fault, 1)
    client = Client(plant.port)
    send(client, (1, read(MARK)), (1, read(MARK)))
    copies, took = timed(lambda: [reply(client) for _ in range(101)])
    counts.note("many copies", [it[0] for it in copies] == [0] * 100 + [1] and took >= LATE, (len(copies), took))
    ended, took = timed(lambda: client.socket.recv(1))
    counts.note("an answer without bytes", ended == b"" and took >= LATE - 0.05, (ended, took))
    counts.note("it ends", plant.process.wait(5) == 0)


def play_service(counts, program, folder):
    """A service loses a device that answers later than its timeout, and keeps the others."""
    plants = [Simulator(program, folder, f"part{slow}", device(1, slow), 0) for slow in (400, 20)]
    with open(f"{TOP}/examples/site.toml", encoding="utf-8") as it:
        text = it.read()
    for n, plant in enumerate(plants, 1):
        old = f'name = "inv{n}"\nunit = {n}'
        text = text.replace(old, f'{old}\nremote_unit = 1\naddress = "127.0.0.1:{plant.port}"')
    with open(f"{folder}/late_site.toml", "w", encoding="utf-8") as it:
        it.write(text)
    words = [f"{folder}/late_site.toml", f"{TOP}/examples/limiter.il", "--listen", "127.0.0.1:0", "--quiet"]
    service = Service(program, [*words, "--every", "400", "--timeout", "200"])
    counts.note("the late one is lost", service.has(r"\S+ device inv1 lost Silent", 10), service.lines)
    counts.note("the other one is found", service.has(r"\S+ device inv2 found 1 103 123", 10), service.lines)
    counts.note("the late one never is", not any("inv1 found" in line for line in service.lines), service.lines)
    counts.note("the other one isn't lost", not any("inv2 lost" in line for line in service.lines), service.lines)
    service.end()
    services = [(every, Service(program, [*words, "--every", every, "--timeout", "1000"])) for every in ("2000", "400")]
    for every, service in services:
        found = service.has(r"\S+ device inv1 found 1 103 123", 15)
        counts.note(f"with time enough it is found, and isn't lost, by --every {every}", found and not any("lost" in it for it in service.lines), service.lines)
        service.end()
    for it in plants:
        it.end()


PLAYS = (play_answers, play_faults, play_service)


if __name__ == "__main__":
    sys.exit(try_alone(sys.argv[1:], PLAYS))

"""The clients of tools/soak: those that read, those that write, hostile ones, and those who look, with what they saw."""

import collections
import dataclasses
import http.client
import json
import os
import random
import socket
import struct
import time

# the longest that an answer may take
LONGEST = 0.05
# registers of the gateway: its mark, the inverter model with its total power, the controls, and what clients set there
MARK, INVERTER, TOTAL, CONTROLS, SET = 40000, 40070, 14, 40122, 40127
ABSENT, UNSET = 0x8000, 0xFFFF
# the tags that are set, each with its point, its greatest number and what is written
NUMBERS = (1, 2, 300, 4000)
SETTINGS = (("target", "WMaxLimPct", 100, (30, 50, 70, 90)), ("first", "WMaxLimPct_WinTms", 10000, NUMBERS),
            ("second", "WMaxLimPct_RvrtTms", 10000, NUMBERS), ("third", "WMaxLimPct_RmpTms", 10000, NUMBERS))
# what the devices can give, and the totals where the first one has a limit or none
WATTS = (4000, 2500, 1000)
TOTALS = {ABSENT, *(min(WATTS[0], limit) + WATTS[1] + WATTS[2] for limit in (1500, 2500, 3500, 4500))}
# a service: its port, its process and its file of set values
Place = collections.namedtuple("Place", "port pid state")


class Wrong(Exception):
    """An answer that isn't right."""


@dataclasses.dataclass
class Seen:
    """What a client saw. Late answers have their begin, their end, and how long a processor was waited for."""

    requests: int = 0
    longest: float = 0.0
    late: list = dataclasses.field(default_factory=list)
    wrong: list = dataclasses.field(default_factory=list)
    lost: list = dataclasses.field(default_factory=list)


class Client:
    """A Modbus TCP client."""

    def __init__(self, place, seen, source):
        self.socket = socket.create_connection(("127.0.0.1", place.port), 30, (source, 0))
        self.socket.setsockopt(socket.IPPROTO_TCP, socket.TCP_NODELAY, 1)
        self.number, self.seen = 0, seen
        self.waits = [os.open(f"/proc/{it}/schedstat", os.O_RDONLY) for it in ("self", place.pid)]

    def ask(self, pdu, unit=1):
        self.number = self.number + 1 & 0xFFFF
        waited, began = self.waited(), time.monotonic()
        self.socket.sendall(struct.pack(">HHHB", self.number, 0, len(pdu) + 1, unit) + pdu)
        number, protocol, length, other = struct.unpack(">HHHB", self.take(7))
        reply, end = self.take(max(length - 1, 0)), time.monotonic()
        self.seen.requests += 1
        self.seen.longest = max(self.seen.longest, end - began)
        if end - began > LONGEST:
            self.seen.late.append((began, end, self.waited() - waited))
        must((number, protocol, other) == (self.number, 0, unit), f"{number} of {other} for {self.number} of {unit}")
        return reply

    def waited(self):
        """How long the service and this process waited for a processor so far."""
        return sum(int(os.pread(it, 100, 0).split()[1]) for it in self.waits) / 1e9

    def take(self, n):
        got = b""
        while len(got) < n:
            piece = self.socket.recv(n - len(got))
            if not piece:
                raise ConnectionError("closed")
            got += piece
        return got

    def expect(self, pdu, wanted, unit=1):
        reply = self.ask(pdu, unit)
        must(reply == wanted, f"{pdu.hex()} of unit {unit} is answered by {reply.hex()}")

    def read(self, address, count):
        reply = self.ask(struct.pack(">BHH", 3, address, count))
        must(reply[:2] == bytes([3, 2 * count]) and len(reply) == 2 + 2 * count, f"{count} at {address}: {reply.hex()}")
        return struct.unpack(f">{count}H", reply[2:])

    def close(self):
        for it in self.waits:
            os.close(it)
        self.socket.close()


def must(holds, what):
    if not holds:
        raise Wrong(what)


def read_once(client, turn, own, _):
    """One request of a reader. The first one is at another address, and may not write."""
    kind = turn % 8
    if kind == 0:
        words = client.read(MARK, 125)
        parts = (words[:4], words[70:72], words[122:124])
        must(parts == ((0x5375, 0x6E53, 1, 66), (103, 50), (123, 24)), f"the map is {words}")
    elif kind < 4:
        words = client.read(INVERTER, 52)
        must(words[:2] == (103, 50) and words[TOTAL] in TOTALS, f"the total is {words[TOTAL]}")
    elif kind == 4:
        words = client.read(CONTROLS, 28)
        fits = [it in (UNSET, *setting[3]) for it, setting in zip(words[SET - CONTROLS:], SETTINGS)]
        must(words[:2] == (123, 24) and words[26:] == (0xFFFF, 0) and all(fits), f"the controls are {words}")
    elif kind == 5 and own == 0:
        client.expect(struct.pack(">BHH", 6, SET, 10), b"\x86\x01")
    elif kind == 5:
        client.expect(struct.pack(">BHH", 3, 50000, 2), b"\x83\x02")
    elif kind == 6:
        client.expect(struct.pack(">BHH", 3, MARK, 2), b"\x83\x0b", unit=77)
    else:
        client.expect(struct.pack(">BHH", 3, MARK, 126), b"\x83\x03")
        client.expect(b"\x2b\x0e\x01\x00", b"\xab\x01")


def write_once(client, turn, own, state):
    """One write: the file of set values has it once it is acknowledged, and it is read back."""
    (name, _, high, numbers), address = SETTINGS[own], SET + own
    number = numbers[turn % len(numbers)]
    if turn % 5 == 4:
        client.expect(struct.pack(">BHH", 6, address, high + 1), b"\x86\x03")
        client.expect(struct.pack(">BHH", 6, INVERTER, 1), b"\x86\x02")
        return
    if turn % 2:
        client.expect(struct.pack(">BHH", 6, address, number), struct.pack(">BHH", 6, address, number))
    else:
        client.expect(struct.pack(">BHHBH", 16, address, 1, 2, number), struct.pack(">BHH", 16, address, 1))
    must(kept(state).get(name) == str(number), f"{name} isn't kept as {number}")
    read = client.read(address, 1)
    must(read == (number,), f"{name} is read as {read}, not {number}")


def kept(path):
    """What the file of set values says."""
    if not os.path.exists(path):
        return {}
    with open(path, encoding="utf-8") as it:
        return dict(line.rstrip("\n").split("=") for line in it)


def ask_once(client, *_):
    """One request of a client whose requests a second are measured. A simulator's plant doesn't tick by it."""
    client.read(INVERTER + 2, 50)


def client_life(place, once, pause, own, until):
    """A client asks until then, and comes again where its connection is lost."""
    seen, turn, client = Seen(), own, None
    while time.monotonic() < until:
        try:
            client = Client(place, seen, "127.0.0.2" if once is read_once and own == 0 else "127.0.0.1")
            while time.monotonic() < until:
                turn += 1
                once(client, turn, own, place.state)
                if pause:
                    time.sleep(pause)
        except (Wrong, OSError) as fault:
            (seen.wrong if isinstance(fault, Wrong) else seen.lost).append(repr(fault))
            time.sleep(0.2)
        if client:
            client.close()
            client = None
    return seen


# what those who look ask for by turns, each with what tells that an answer is whole
LOOKS = {
    "/status.json": lambda text: json.loads(text)["scans"] > 0,
    "/metrics": lambda text: text.startswith("# HELP sunsite_info") and text.endswith("\n"),
    "/site.json": lambda text: len(json.loads(text)["program"]["lines"]) > 0,
    "/": lambda text: text.startswith("<!doctype html>") and text.endswith("</html>\n"),
}


def viewer_life(port, own, until):
    """One who looks at the window for browsers and monitors each second, over one connection, by turns at all that it has."""
    seen, link = Seen(), http.client.HTTPConnection("127.0.0.1", port, timeout=5)
    while time.monotonic() < until:
        try:
            own += 1
            path, is_whole = list(LOOKS.items())[own % len(LOOKS)]
            link.request("GET", path)
            answer = link.getresponse()
            text = answer.read().decode()
            if answer.status != 200 or not is_whole(text):
                seen.wrong.append(f"{answer.status}: {text[:80]}")
            seen.requests += 1
        except (OSError, ValueError, http.client.HTTPException) as fault:
            seen.lost.append(repr(fault))
            link.close()
        time.sleep(1)
    link.close()
    return seen


def slow_life(port, until):
    """One who sends a request there a byte a second: it is closed before it is whole."""
    seen = Seen()
    while time.monotonic() < until:
        with socket.create_connection(("127.0.0.1", port), 5) as link:
            try:
                for byte in b"GET /metrics HTTP/1.1\r\nHost: 127.0.0.1\r\n\r\n":
                    link.sendall(bytes([byte]))
                    time.sleep(1)
                    if time.monotonic() >= until:
                        break
            except OSError:
                pass
        seen.requests += 1
    return seen


def hostile_life(place, seed, until):
    """Connections of bytes that are no requests, requests in pieces, floods, breaks."""
    seen, chance = Seen(), random.Random(seed)
    while time.monotonic() < until:
        try:
            with socket.create_connection(("127.0.0.1", place.port), 1) as link:
                harm(link, chance, seen)
        except OSError:
            pass
        seen.requests += 1
        time.sleep(0.1)
    return seen


def harm(link, chance, seen):
    """What one hostile connection does. The answers to requests that come byte by byte are looked at."""
    request, what = struct.pack(">HHHBBHH", 1, 0, 6, 1, 3, MARK, 125), chance.randrange(6)
    if what == 0:
        link.sendall(chance.randbytes(chance.randrange(1, 600)))
    elif what == 1:
        link.sendall(request[:chance.randrange(1, len(request))])
    elif what == 2:
        link.sendall(request * 10000)
    elif what == 3:
        link.sendall(request * 20)
        link.setsockopt(socket.SOL_SOCKET, socket.SO_LINGER, struct.pack("ii", 1, 0))
        return
    elif what == 4:
        link.sendall(b"\0\1\0\0\xff\xff" + chance.randbytes(50))
    else:
        got = b""
        for byte in request * 3:
            link.sendall(bytes([byte]))
            time.sleep(0.01)
        while len(got) < 3 * 259 and (piece := link.recv(1000)):
            got += piece
        if [got[n:n + 11].hex() for n in (0, 259, 518)] != 3 * ["0001000000fd0103fa5375"]:
            seen.wrong.append(f"byte by byte: {got.hex()}")
    while link.recv(65536):
        pass

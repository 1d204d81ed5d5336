"""Plays of tools/try-serve, with devices that do what each play asks for."""

import json
import socket
import struct
import threading
import time

from serve_parts import Client, Service, close, state_of, text_of, until

# the models of a device, from its base on: ID, number of registers, and what some of them hold
SUNS = (0x5375, 0x6E53)
BASE = 40000
PHASES = ("PPVphAB", "PPVphBC", "PPVphCA")
# registers of the gateway: model 1 stands at 40002, model 103 at 40070, model 123 at 40122
SHOWN = [40077, 40078, 40079]
LIMIT, PERCENT = 40127, 40137

GATEWAY = """[gateway]
unit = 1
models = [1, 103, 123]
"""
SERVED = """
[[served]]
model = 103
point = "V_SF"
value = 0

[[served]]
model = 123
point = "WMaxLimPct_SF"
value = 0

[[served]]
model = 123
point = "VArPct_SF"
value = 0
"""
DEVICE = """
[[device]]
name = "inv{n}"
unit = {n}
"""
READ = """
[[tag]]
name = "w{n}"
access = "in"
device = "inv{n}"
model = 103
point = "W"
type = "DINT"
exponent = 0
low = -100000
high = 100000

[[tag]]
name = "s{n}"
access = "site"
model = 103
point = "{phase}"
type = "DINT"
exponent = 0
low = 0
high = 65534
"""
SET = """
[[tag]]
name = "{name}"
access = "set"
model = 123
point = "{point}"
type = "INT"
exponent = 0
low = {low}
high = {high}
"""
WRITTEN = """
[[tag]]
name = "lim1"
access = "out"
device = "inv1"
model = 123
point = "WMaxLimPct"
type = "INT"
exponent = 0
low = 0
high = 100
"""
# each device's power is shown at a point of its own; scans are counted; the first device is limited
PROGRAM = """PROGRAM shows
VAR_EXTERNAL
  w1, w2, w3, s1, s2, s3 : DINT;
  lim1 : INT;
END_VAR
VAR
  scans : DINT (0..1000000);
END_VAR
  LD scans
  ADD 1
  MIN 1000000
  ST scans
  LD 50
  ST lim1
  LD w1_OK
  JMPCN second
  LD w1
  MAX 0
  MIN 65534
  ST s1
second:
  LD w2_OK
  JMPCN third
  LD w2
  MAX 0
  MIN 65534
  ST s2
third:
  LD w3_OK
  JMPCN over
  LD w3
  MAX 0
  MIN 65534
  ST s3
over:
END_PROGRAM
"""


def inverter(watts):
    """The registers of an inverter that gives so many watts, by their addresses."""
    words = list(SUNS)
    for model, length, held in ((1, 66, {}), (103, 50, {12: watts, 13: 0}), (123, 24, {3: 100, 21: 0})):
        words += [model, length] + [held.get(n, 0x8000) for n in range(length)]
    return {BASE + n: word for n, word in enumerate([*words, 0xFFFF, 0])}


class OwnDevice:
    """A Modbus TCP server of units with registers, that is silent, answers writes in some other way or is gone as it is told."""

    def __init__(self, units):
        # (`refuses` is the exception code by which it refuses writes; `confused` it answers as if another register had been written)
        self.units, self.silent, self.refuses, self.confused = units, False, None, False
        self.written, self.came, self.sockets, self.port = [], 0, [], 0
        self.asked_at = 0.0
        self.open()

    def open(self):
        self.door = self.listen()
        self.port = self.door.getsockname()[1]
        threading.Thread(target=self.meet, args=(self.door,), daemon=True).start()

    def listen(self):
        return socket.create_server(("127.0.0.1", self.port))

    def address(self):
        return f"127.0.0.1:{self.port}"

    def meet(self, door):
        while True:
            try:
                it, _ = door.accept()
            except OSError:
                return
            self.came += 1
            self.sockets.append(it)
            threading.Thread(target=self.serve, args=(it,), daemon=True).start()

    def serve(self, it):
        try:
            while head := it.recv(7, socket.MSG_WAITALL):
                number, _, length, unit = struct.unpack(">HHHB", head)
                pdu = it.recv(length - 1, socket.MSG_WAITALL)
                self.answer(it, number, unit, pdu)
        except (OSError, struct.error):
            pass
        close(it)

    def answer(self, it, number, unit, pdu):
        self.asked_at = time.monotonic()
        if not self.silent:
            reply = self.reply(unit, pdu)
            it.sendall(struct.pack(">HHHB", number, 0, len(reply) + 1, unit) + reply)

    def reply(self, unit, pdu):
        registers, function = self.units.get(unit), pdu[0]
        if registers is None:
            return bytes([function | 0x80, 0x0B])
        if function != 3 and self.refuses is not None:
            return bytes([function | 0x80, self.refuses])
        if function != 3 and self.confused:
            return bytes([function, 0, 0, 0, 1])
        addr, count = struct.unpack(">HH", pdu[1:5])
        if function == 3 and all(addr + n in registers for n in range(count)):
            return bytes([3, 2 * count]) + b"".join(struct.pack(">H", registers[addr + n]) for n in range(count))
        if function == 16 and all(addr + n in registers for n in range(count)):
            words = struct.unpack(f">{count}H", pdu[6:])
            registers.update({addr + n: word for n, word in enumerate(words)})
            self.written.append((unit, addr, words))
            return pdu[:5]
        return bytes([function | 0x80, 2])

    def gone(self):
        for it in [self.door, *self.sockets]:
            close(it)
        self.sockets = []


def site_text(devices, written=True, sets=(), more=""):
    """A site of such devices, each with its own keys."""
    text = GATEWAY + "".join(DEVICE.format(n=n) + keys for n, keys in enumerate(devices, 1))
    text += "".join(READ.format(n=n, phase=phase) for n, phase in enumerate(PHASES, 1))
    text += "".join(SET.format(**it) for it in sets) + (WRITTEN if written else "")
    return text + SERVED + more


def put(folder, name, text):
    path = f"{folder}/{name}"
    with open(path, "w", encoding="utf-8") as it:
        it.write(text)
    return path


def shown(client):
    return [client.read(addr)[0] for addr in SHOWN]


def play_three_links(counts, program, folder):
    """Three addresses; one device is silent and comes back, one refuses a write, one comes late."""
    devices = [OwnDevice({1: inverter(1000 + n)}) for n in (1, 2, 3)]
    keys = [f'remote_unit = 1\naddress = "{it.address()}"\n' for it in devices]
    site, code, status = put(folder, "three.toml", site_text(keys)), put(folder, "shows.il", PROGRAM), f"{folder}/three.status"
    words = [site, code, "--listen", "127.0.0.1:0", "--every", "100", "--verbose", "--status-file", status]
    service = Service(program, words)
    client = Client(service.port())
    counts.note("each device at its own address", until(lambda: shown(client), [1001, 1002, 1003]) == [1001, 1002, 1003], shown(client))
    counts.note("the limit goes to the first", until(lambda: len(devices[0].written) > 0, True), devices[0].written)
    counts.note("and to no other", not devices[1].written and not devices[2].written, (devices[1].written, devices[2].written))
    counts.note("its words and register", devices[0].written[0] == (1, LIMIT, (50,)), devices[0].written[:1])
    play_counted(counts, service, status)
    play_silence(counts, service, client, devices[2])
    play_refusal(counts, service, devices[0], status)
    play_late(counts, service, client, devices[1], status)
    client.close()
    service.end()
    for it in devices:
        it.gone()


def play_counted(counts, service, status):
    """The program counts its scans: there is one each period."""
    time.sleep(0.6)
    told = json.loads(text_of(status))
    counts.note("a scan each period", told["scans"] == told["variables"]["scans"] > 3, (told["scans"], told["variables"]))
    lines = [int(it.split()[1]) for it in service.lines if it.startswith("scan ")]
    counts.note("each has its line", lines == list(range(1, len(lines) + 1)), lines)


def play_silence(counts, service, client, device):
    behind, came = len(service.lines), device.came
    device.silent = True
    counts.note("a silent device is lost", service.has(r"\S+ device inv3 lost Silent", behind=behind), service.lines[behind:])
    counts.note("what it showed is gone", until(lambda: shown(client), [1001, 1002, 0xFFFF]) == [1001, 1002, 0xFFFF], shown(client))
    # (three requests without an answer: each is waited for as long as a reply may take, and comes as long after the one before)
    counts.note("it is hung up and dialed again", until(lambda: device.came > came, True, 8), device.came)
    device.silent = False
    counts.note("it comes back", until(lambda: shown(client), [1001, 1002, 1003], 15) == [1001, 1002, 1003], service.lines[behind:][-8:])


def play_refusal(counts, service, device, status):
    """Writes that a device refuses by one exception and by another, and answers by what is none; last it takes them."""
    begun = len(service.lines)
    for code, meaning in ((4, "its device failed to do it"), (2, "its device has no such registers to write"), (77, "its device doesn't take it, for a reason of its own")):
        device.refuses = code
        play_refused(counts, service, status, f"Refused {code}", {"cause": "Refused", "code": code}, meaning)
    device.refuses, device.confused = None, True
    play_refused(counts, service, status, "Refused", {"cause": "Refused"}, "what its device answers is no answer to the write")
    counts.note("so says the scan", any(it.endswith("writes 1 refused 1 lost 0") for it in service.lines[begun:]), service.lines[begun:])
    counts.note("each cause is told once", sum(" output lim1 " in it for it in service.lines[begun:]) == 4, service.lines[begun:])
    behind, device.confused = len(service.lines), False
    counts.note("a write that is taken again", service.has(r"\S+ output lim1 written", behind=behind), service.lines[behind:])


def play_refused(counts, service, status, told, keys, meaning):
    """A write that isn't done, for this cause: in a line, and in the status file as these keys, and with an alarm of this meaning."""
    counts.note(f"it is told: {told}", service.has(rf"\S+ output lim1 unwritten {told}"), service.lines[-8:])
    wanted = ({"value": 50, "state": "unwritten", **keys}, [{"kind": "output_unwritten", "name": "lim1", **keys, "text": f"lim1 isn't written ({told}): {meaning}"}])
    seen = lambda: refused_in(json.loads(text_of(status)))
    counts.note(f"so says the status: {told}", until(seen, wanted) == wanted, seen())


def refused_in(told):
    """What a status file says of the output, and of its alarm except since when it stands and what to do."""
    alarms = [it for it in told["alarms"] if it["kind"] == "output_unwritten"]
    return state_of(told), [{key: it[key] for key in it if key not in ("since", "began", "todo")} for it in alarms]


def play_unreached(counts, program, folder):
    """A gateway that says of each write that its unit doesn't answer, or can't be reached: the device is lost, and nothing refused."""
    device = OwnDevice({1: inverter(1001)})
    site, code, status = put(folder, "unreached.toml", site_text([f'remote_unit = 1\naddress = "{device.address()}"\n'] * 3)), put(folder, "shows.il", PROGRAM), f"{folder}/unreached.status"
    service = Service(program, [site, code, "--listen", "127.0.0.1:0", "--every", "100", "--status-file", status])
    counts.note("its output is written", service.has(r"\S+ output lim1 written") or until(lambda: device.written != [], True), service.lines)
    for exception in (11, 10):
        behind, device.refuses = len(service.lines), exception
        counts.note(f"it is lost by {exception}", service.has(r"\S+ device inv1 lost Gateway", behind=behind), service.lines[behind:])
        counts.note("its write has no answer", service.has(r"\S+ output lim1 unwritten Unanswered", behind=behind), service.lines[behind:])
        behind, device.refuses = len(service.lines), None
        counts.note("it is written again", service.has(r"\S+ output lim1 written", 15, behind=behind), service.lines[behind:])
    counts.note("no write is told as refused", not any("Refused" in it for it in service.lines), service.lines)
    service.end()
    device.gone()


def play_late(counts, service, client, device, status):
    """A device that comes back when the service is some seconds old changes nothing of its time."""
    device.gone()
    counts.note("it is lost", service.has(r"\S+ device inv2 lost Down"), service.lines[-5:])
    time.sleep(2)
    behind = len(service.lines)
    device.open()
    counts.note("it is found late", service.has(r"\S+ device inv2 found 1 103 123", 10, behind=behind), service.lines[behind:][-5:])
    first = json.loads(text_of(status))
    time.sleep(1)
    second = json.loads(text_of(status))
    counts.note("scans stand still in time", 8 <= second["scans"] - first["scans"] <= 12, (first["scans"], second["scans"]))
    counts.note("the client stays", client.read(SHOWN[0]) == (1001,))


def play_one_address(counts, program, folder):
    """With --devices all are behind one address, by their own units, whatever the site file says of addresses."""
    device = OwnDevice({n: inverter(2000 + n) for n in (1, 2, 3)})
    with socket.create_server(("127.0.0.1", 0)) as it:
        nowhere = it.getsockname()[1]
    site = put(folder, "one.toml", site_text([f'remote_unit = 9\naddress = "127.0.0.1:{nowhere}"\n'] * 3))
    code = put(folder, "shows.il", PROGRAM)
    service = Service(program, [site, code, "--devices", device.address(), "--listen", "127.0.0.1:0", "--every", "100"])
    client = Client(service.port())
    counts.note("all behind one address", until(lambda: shown(client), [2001, 2002, 2003]) == [2001, 2002, 2003], (shown(client), service.lines))
    counts.note("over one connection", device.came == 1, device.came)
    client.close()
    service.end()
    device.gone()


def play_writers(counts, program, folder):
    """Two addresses may write, and no other; and a negative number over a restart."""
    sets = [{"name": "target", "point": "WMaxLimPct", "low": 0, "high": 100}, {"name": "share", "point": "VArWMaxPct", "low": -100, "high": 100}]
    site, state = put(folder, "writers.toml", site_text([""] * 3, False, sets)), f"{folder}/writers.state"
    code = put(folder, "quiet.il", "PROGRAM quiet\nVAR a : INT; END_VAR\nLD 1\nST a\nEND_PROGRAM\n")
    words = [site, code, "--devices", "127.0.0.1:9", "--listen", "127.0.0.1:0", "--every", "100", "--state", state]
    may = ["--write-from", "127.0.0.2", "--write-from", "127.0.0.3"]
    service = Service(program, [*words, *may])
    port = service.port()
    for n, wanted in ((2, True), (3, True), (4, False), (1, False)):
        client = Client(port, f"127.0.0.{n}")
        reply = client.write(LIMIT, 10 + n)
        counts.note(f"127.0.0.{n} {'may' if wanted else 'may not'} write", (reply[0] == 6) == wanted and (wanted or reply == bytes([0x86, 1])), reply)
        client.close()
    client = Client(port, "127.0.0.2")
    counts.note("a negative number is taken", client.write(PERCENT, 0x10000 - 30)[0] == 6 and text_of(state) == "target=13\nshare=-30\n", text_of(state))
    service.end()
    service = Service(program, [*words, *may])
    client = Client(service.port())
    counts.note("and set again after a restart", client.read(PERCENT) == (0x10000 - 30,) and client.read(LIMIT) == (13,), client.read(PERCENT))
    service.end()


def play_networks(counts, program, folder):
    """Whoever is in a network may write, and whoever isn't may not."""
    sets = [{"name": "target", "point": "WMaxLimPct", "low": 0, "high": 100}]
    site = put(folder, "networks.toml", site_text([""] * 3, False, sets))
    code = put(folder, "quiet.il", "PROGRAM quiet\nVAR a : INT; END_VAR\nLD 1\nST a\nEND_PROGRAM\n")
    may = ["--write-from", "127.0.1.0/30", "--write-from", "127.0.0.9"]
    service = Service(program, [site, code, "--devices", "127.0.0.1:9", "--listen", "127.0.0.1:0", "--every", "100", *may])
    port = service.port()
    for address, wanted in (("127.0.1.1", True), ("127.0.1.3", True), ("127.0.1.4", False), ("127.0.0.9", True), ("127.0.0.1", False)):
        client = Client(port, address)
        reply = client.write(LIMIT, 20)
        counts.note(f"{address} {'may' if wanted else 'may not'} write", (reply[0] == 6) == wanted and (wanted or reply == bytes([0x86, 1])), reply)
        client.close()
    service.end()


def definition(at):
    """Model 64001, whose point X stands at the first or at the second register."""
    names = ["X", "Y"] if at == 0 else ["Y", "X"]
    points = "".join(f',\n {{"name": "{it}", "type": "uint16", "size": 1}}' for it in names)
    return f'{{"id": 64001, "group": {{"points": [{{"name": "ID", "type": "uint16", "size": 1}},\n {{"name": "L", "type": "uint16", "size": 1}}{points}]}}}}'


def play_definitions(counts, program, folder):
    """A model of a maker's own: of two definitions of it the last one counts."""
    words = [*SUNS, 1, 66, *[0x8000] * 66, 64001, 2, 71, 72, 0xFFFF, 0]
    device = OwnDevice({1: {BASE + n: word for n, word in enumerate(words)}})
    first, second = put(folder, "first.json", definition(0)), put(folder, "second.json", definition(1))
    tag = READ.format(n=1, phase=PHASES[0]).replace("model = 103\npoint = \"W\"", "model = 64001\npoint = \"X\"")
    site = put(folder, "own_model.toml", GATEWAY + DEVICE.format(n=1) + tag + SERVED)
    code = put(folder, "own.il", "PROGRAM own\nVAR_EXTERNAL w1, s1 : DINT; END_VAR\nLD w1_OK\nJMPCN over\nLD w1\nMAX 0\nMIN 65534\nST s1\nover:\nEND_PROGRAM\n")
    for defs, wanted in (((first, second), 72), ((second, first), 71)):
        more = [it for path in defs for it in ("--def", path)]
        service = Service(program, [site, code, "--devices", device.address(), "--listen", "127.0.0.1:0", "--every", "100", *more])
        client = Client(service.port())
        counts.note(f"the last definition counts: {wanted}", until(lambda: client.read(SHOWN[0]), (wanted,)) == (wanted,), (client.read(SHOWN[0]), service.lines))
        client.close()
        service.end()
    device.gone()


def play_slow_reader(counts, program, folder):
    """A client that asks much and takes its answers late gets each of them whole, in order."""
    site = put(folder, "slow.toml", site_text([""] * 3, False))
    code = put(folder, "quiet.il", "PROGRAM quiet\nVAR a : INT; END_VAR\nLD 1\nST a\nEND_PROGRAM\n")
    service = Service(program, [site, code, "--devices", "127.0.0.1:9", "--listen", "127.0.0.1:0", "--every", "1000"])
    port, many = service.port(), 20000
    client = Client(port)
    client.socket.setsockopt(socket.SOL_SOCKET, socket.SO_RCVBUF, 65536)
    asked = b"".join(struct.pack(">HHHBBHH", n & 0xFFFF, 0, 6, 1, 3, BASE, 125) for n in range(many))
    threading.Thread(target=client.socket.sendall, args=(asked,), daemon=True).start()
    time.sleep(0.5)
    right = 0
    for n in range(many):
        number, _, length, _ = struct.unpack(">HHHB", client.take(7))
        right += number == n & 0xFFFF and length == 253 and client.take(length - 1)[:2] == bytes([3, 250])
    counts.note("a slow reader's answers", right == many, right)
    service.end()


PLAYS = (play_three_links, play_one_address, play_writers, play_networks, play_definitions, play_slow_reader, play_unreached)

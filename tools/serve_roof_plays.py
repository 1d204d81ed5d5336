"""Plays of tools/try-serve on many units at one connection, and on devices that are slow, fall silent, come back or hang up.

  tools/serve_roof_plays.py [PROGRAM]     these plays alone, and what they measured

A period is one second, and so is the longest wait for a reply, where nothing else is said. Each play looks at the device's side:
when a unit is written is when the request comes there. Few are tried side by side, since the devices share one interpreter.
"""

import json
import re
import signal
import struct
import sys
import time
from functools import partial

sys.dont_write_bytecode = True
from serve_parts import Client, Service, text_of, try_alone, until, within
from serve_plays import DEVICE, GATEWAY, OwnDevice, inverter, put
from serve_survey import TAG, WATTS, survey

PERIOD = 1.0
# what this host may take from the program and from the devices, in seconds
SLACK = 0.5
# each unit is read twice, since its outputs need the factors of their model, and has one of these, or all
OUTPUTS = (("lim", "WMaxLimPct", "INT", 100, "50"), ("win", "WMaxLimPct_WinTms", "INT", 300, "7"), ("ena", "WMaxLim_Ena", "BOOL", 1, "TRUE"))
FOUND = "found 1 103 123"
# a sum, and at another point that of the devices that are there
SUM = """
[[served]]
model = 103
point = "W"
sum = ["w1", "w2"]

[[served]]
model = 103
point = "W_SF"
value = 0

[[served]]
model = 103
point = "VA"
sum = ["w1", "w2"]
partial = true

[[served]]
model = 103
point = "VA_SF"
value = 0
"""
# the registers of both
SUMS = 40084, 40088


class Roof(OwnDevice):
    """Units behind one address that answer so many seconds late; those that are dead answer nothing. It keeps when each was
    written, and closes connections that were idle for so long."""

    def __init__(self, count=1, delay=0.005, dead=(), idle=None):
        self.delay, self.dead, self.idle, self.away = delay, set(dead), idle, set()
        self.times, self.held, self.unanswered = {n: [] for n in range(1, count + 1)}, set(), []
        super().__init__({n: inverter(1000 + n) for n in self.times})

    def serve(self, it):
        it.settimeout(self.idle)
        super().serve(it)

    def answer(self, it, number, unit, pdu):
        at = time.monotonic()
        if unit in self.dead:
            self.unanswered.append(at)
            return
        if unit in self.units:
            time.sleep(self.delay)
            if pdu[0] == 16:
                self.times[unit].append(at)
                self.held.add((unit, pdu[1:3]))
        super().answer(it, number, unit, pdu)

    def reply(self, unit, pdu):
        """A gateway says that there is no way to a unit that is away, and that one that is no more doesn't answer."""
        return bytes([pdu[0] | 0x80, 0x0A]) if unit in self.away else super().reply(unit, pdu)

    def living(self):
        return [n for n in self.units if n not in self.dead | self.away]

    def gaps(self, unit, begin, end):
        """The times between the writes of a unit, from the last one before the begin on; the end counts as one."""
        times = list(self.times[unit])
        times = [max([it for it in times if it < begin], default=begin), *(it for it in times if begin <= it < end), end]
        return [later - at for at, later in zip(times, times[1:])]

    def longest(self, begin, end):
        """The longest time without a write of a unit that lives."""
        return max(max(self.gaps(n, begin, end)) for n in self.living())

    def are_written(self, times=3, seconds=20):
        """Whether each unit that lives is written so often within a while."""
        return until(lambda: all(len(self.times[n]) >= times for n in self.living()), True, seconds)


class Refusing(Roof):
    """One unit that answers which models it has, and refuses those that begin at these registers."""

    def __init__(self, refused):
        self.refused = refused
        super().__init__()

    def reply(self, unit, pdu):
        address, count = struct.unpack(">HH", pdu[1:5])
        return bytes([0x83, 4]) if pdu[0] == 3 and address in self.refused and count > 2 else super().reply(unit, pdu)


class Site:
    """A service over roofs, each at its own address. Devices may have more keys, by their numbers, and clients be served more."""

    def __init__(self, program, folder, roofs, outputs=1, more=(), keys={}, served=""):
        text, code, names, number = GATEWAY, "", [], 0
        for roof in roofs:
            for unit in roof.times:
                number += 1
                text += DEVICE.format(n=number) + f'remote_unit = {unit}\naddress = "{roof.address()}"\n' + keys.get(number, "") + TAG.format(name=f"w{number}", n=number, **WATTS)
                for name, point, kind, high, value in OUTPUTS[:outputs]:
                    tag = {"access": "out", "model": 123, "point": point, "kind": kind, "exponent": 0, "low": 0, "high": high}
                    text += TAG.format(name=f"{name}{number}", n=number, **tag)
                    names.append(f"  {name}{number} : {kind};\n")
                    code += f"  LD {value}\n  ST {name}{number}\n"
        self.roofs, self.path = roofs, put(folder, "roofs.toml", text + served)
        program_path = put(folder, "roofs.il", "PROGRAM roofs\nVAR_EXTERNAL\n" + "".join(names) + "END_VAR\n" + code + "END_PROGRAM\n")
        self.began = time.monotonic()
        self.status_path = f"{folder}/status"
        self.service = Service(program, [self.path, program_path, "--listen", "127.0.0.1:0", "--quiet", "--status-file", self.status_path, *more])

    def told(self, word, behind=0):
        """The lines so far with this word, without their time."""
        return [it.split(" ", 1)[1] for it in self.service.lines[behind:] if f" {word} " in it]

    def status(self):
        return json.loads(text_of(self.status_path))

    def end(self):
        self.service.end()
        for it in self.roofs:
            it.gone()


def names(units, words):
    return sorted(f"device inv{n} {words}" for n in units)


def play_dying(counts, program, folder, count, most):
    """Each second unit falls silent at once: the others go on to be written."""
    what, roof = f"{count // 2} of {count} units fall silent", Roof(count)
    site = Site(program, folder, [roof])
    counts.note(f"{what}: all are written before", roof.are_written(), site.service.lines)
    behind, begin = len(site.service.lines), time.monotonic()
    roof.dead = set(range(1, count + 1, 2))
    until(lambda: len(site.told("lost", behind)), count // 2, 25)
    lost = time.monotonic() - begin
    time.sleep(max(0, within(25) - lost))
    longest = roof.longest(begin, time.monotonic())
    counts.tell(what, f"the longest time without a write of another one: {longest:.2f} s; all are told lost after {lost:.1f} s")
    counts.note(f"{what}: no other one is unwritten for more than {most} s", longest <= within(most), (longest, site.service.lines[behind:]))
    counts.note(f"{what}: they are told lost, once, and no other one", sorted(site.told("lost", behind)) == names(roof.dead, "lost Silent"), site.service.lines[behind:])
    site.end()


def play_begun(counts, program, folder, count, dead, most):
    """Half of the units are silent from the start: the others are written within a time, and go on to be."""
    what, roof = f"units {', '.join(map(str, dead))} of {count} are silent from the start", Roof(count, dead=dead)
    site = Site(program, folder, [roof])
    counts.note(f"{what}: each other one is written", roof.are_written(1), site.service.lines)
    first = max(roof.times[n][0] - site.began for n in roof.living())
    counts.note(f"{what}: each other one is written within {most} s", first <= within(most), (first, site.service.lines))
    begin = time.monotonic()
    time.sleep(within(20))
    longest = roof.longest(begin, time.monotonic())
    counts.tell(what, f"the last one of the others is written first after {first:.2f} s; then the longest time without a write {longest:.2f} s")
    counts.note(f"{what}: no other one is unwritten for more than two periods", longest <= within(2 * PERIOD + SLACK), (longest, site.service.lines))
    counts.note(f"{what}: no other one is lost", not [it for it in site.told("lost") if it not in names(roof.dead, "lost Silent")], site.service.lines)
    site.end()


def play_alone(counts, program, folder, delay):
    """A device whose requests of a scan take longer than a period."""
    what, roof = f"a reply takes {1000 * delay:.0f} ms", Roof(1, delay)
    site = Site(program, folder, [roof], len(OUTPUTS))
    counts.note(f"{what}: it is found", site.service.has(rf"\S+ device inv1 {FOUND}", 8), site.service.lines)
    counts.note(f"{what}: each output is written", until(lambda: len(roof.held), len(OUTPUTS), 8) == len(OUTPUTS), (roof.held, site.service.lines))
    begin = time.monotonic()
    time.sleep(within(15))
    spans = [(roof.times[1][n + 3] - roof.times[1][n]) for n in range(len(roof.times[1]) - 3)]
    counts.tell(what, f"first written after {roof.times[1][0] - site.began:.2f} s; each output again after {min(spans):.2f} to {max(spans):.2f} s")
    longest = roof.longest(begin, time.monotonic())
    counts.note(f"{what}: and each is written again, each second period", max(longest, *spans) <= within(2 * PERIOD + SLACK), (longest, spans))
    counts.note(f"{what}: nothing is lost", not site.told("lost"), site.service.lines)
    site.service.end()
    ran = survey(program, site.path)
    counts.note(f"{what}: a survey finds it", f"device inv1 {roof.address()} unit 1 {FOUND} " in ran.stdout and " lost " not in ran.stdout, ran)
    row = r"pace inv1 replies in (\d+) to (\d+) ms, 5 requests a round: keeps up with --every (\d+); with 1000 it is read and written each (\d)(?:nd|rd|th) round\n"
    said = [int(it) for it in re.fullmatch(row, "".join(ran.paces) or "no row").groups()]
    counts.note(f"{what}: and says how often it can be asked", 1000 * delay <= said[0] <= said[1] and 5.5 * said[1] <= said[2] < 5.5 * said[1] + 51 and said[3] == -(-5 * said[1] // 1000), said)
    site.end()


def play_pace(counts, program, folder):
    """A slow device beside a quick one, each at its own address: each has its own pace."""
    what, quick, slow = "600 ms a reply beside a quick device", Roof(), Roof(1, 0.6)
    site = Site(program, folder, [quick, slow], more=["--every", "1000"])
    counts.note(f"{what}: both are written", quick.are_written() and slow.are_written(3, 30), site.service.lines)
    begin = time.monotonic()
    time.sleep(within(16))
    end = time.monotonic()
    own, others = slow.gaps(1, begin, end)[:-1], quick.longest(site.began + 3, end)
    counts.tell(what, f"the quick one at least each {others:.2f} s; the slow one first after {slow.times[1][0] - site.began:.2f} s, then each {min(own):.2f} to {max(own):.2f} s")
    counts.note(f"{what}: the quick one is written each period", others <= within(PERIOD + SLACK), (others, site.service.lines))
    counts.note(f"{what}: the slow one each second to fourth", 2 * PERIOD - SLACK <= min(own) and max(own) <= within(4 * PERIOD + SLACK), (own, site.service.lines))
    stand = [(it["each"], it["reply"]) for it in site.status()["devices"]]
    counts.note(f"{what}: the status file says so", stand[0][0] == 1 and 0 < stand[0][1] < within(300) and stand[1][0] in (2, 3, 4) and 600 <= stand[1][1] < within(900), stand)
    counts.note(f"{what}: both are found, and none is lost", sorted(site.told("device")) == names((1, 2), FOUND), site.service.lines)
    site.end()


def play_each(counts, program, folder):
    """A device doesn't keep up with the period, and then does: each is told once."""
    what, roof = "500 ms of requests in periods of 200 ms", Roof(1, 0.1)
    site = Site(program, folder, [roof], len(OUTPUTS), more=["--every", "200"])
    counts.note(f"{what}: that is told", site.service.has(r"\S+ device inv1 each [3-6] rounds", 20), site.service.lines)
    time.sleep(8)
    counts.note(f"{what}: once", len(site.told("each")) == 1, site.service.lines)
    roof.delay = 0.002
    counts.note(f"{what}: and that it keeps up", site.service.has(r"\S+ device inv1 each round", 30), site.service.lines)
    site.end()


def play_idle(counts, program, folder):
    """A device that closes connections over which nothing came for a second, in periods of two and a half."""
    what, roof = "idle connections are closed", Roof(idle=1.0)
    site = Site(program, folder, [roof], more=["--every", "2500"])
    counts.note(f"{what}: it is written", roof.are_written(1), site.service.lines)
    begin, came = time.monotonic(), roof.came
    time.sleep(within(20))
    longest, dials = roof.longest(begin, time.monotonic()), roof.came - came
    counts.tell(what, f"{dials} connections in {within(20)} s, a write at least each {longest:.2f} s")
    counts.note(f"{what}: they were", dials > 3, dials)
    counts.note(f"{what}: that is no loss, and the device is told found once", site.told("device") == names((1,), FOUND), site.service.lines)
    counts.note(f"{what}: it is written each period", longest <= within(2.5 + SLACK), (longest, site.service.lines))
    site.end()


def play_lag(counts, program, folder):
    """One of ten units falls silent right before a scan, so that its write is the first that isn't answered: the others are
    written soon after that scan, and after each later one."""
    what, roof = "one of ten units is silent", Roof(10)
    site = Site(program, folder, [roof])
    roof.are_written(5)
    # scans come in time: the writes so far say at which part of a period
    first = roof.times[1][1]
    lags = lambda times: [(at - first + PERIOD / 2) % PERIOD - PERIOD / 2 for at in times]
    scan = min(lag for times in roof.times.values() for lag in lags(times[1:]))
    time.sleep((first + scan - 0.05 - time.monotonic()) % PERIOD)
    begin = time.monotonic()
    roof.dead = {4}
    until(lambda: site.told("lost") != [], True)
    counts.note(f"{what}: it is told lost once a second request isn't answered", len(roof.unanswered) == 2, (roof.unanswered, site.service.lines))
    time.sleep(20)
    after = [lag - scan for n in roof.living() for lag in lags([it for it in roof.times[n] if it >= begin])]
    most, longest = max(after), roof.longest(begin, time.monotonic())
    counts.tell(what, f"from a scan to a write of another one: {1000 * max(0, min(after)):.0f} to {1000 * most:.0f} ms; longest time without one {longest:.2f} s")
    counts.note(f"{what}: the others are written soon after each scan", -0.05 <= min(after) and most < min(within(0.3), 0.45), (min(after), most))
    counts.note(f"{what}: that is told once, and of no other one", site.told("lost") == names({4}, "lost Silent"), site.service.lines)
    site.end()


def play_told(counts, program, folder):
    """A gateway says at once that units don't answer, one of them from the start."""
    what, roof = "a gateway says that three of eight units are gone", Roof(8)
    del roof.units[7]
    site = Site(program, folder, [roof])
    counts.note(f"{what}: the others are written", roof.are_written(), site.service.lines)
    begin = time.monotonic()
    del roof.units[2]
    roof.away = {4}
    time.sleep(within(20))
    longest = roof.longest(begin, time.monotonic())
    counts.tell(what, f"the longest time without a write of another one: {longest:.2f} s")
    counts.note(f"{what}: they are told lost, once", sorted(site.told("lost")) == names({2, 4, 7}, "lost Gateway"), site.service.lines)
    alarms = [(it["name"], it["cause"]) for it in site.status()["alarms"] if it["kind"] == "device_lost"]
    counts.note(f"{what}: these are alarms", sorted(alarms) == [(f"inv{n}", "Gateway") for n in (2, 4, 7)], site.status()["alarms"])
    counts.note(f"{what}: and counted", all((it["losses"]["Gateway"] > 0) == it["lost"] for it in site.status()["devices"]), site.status()["devices"])
    counts.note(f"{what}: the others are written each period", longest <= within(PERIOD + SLACK), (longest, site.service.lines))
    site.end()


def play_back(counts, program, folder):
    """A unit is silent for 20 s and answers again."""
    what, roof = "a unit is back after 20 s", Roof(5)
    site = Site(program, folder, [roof])
    roof.are_written()
    roof.dead = {3}
    time.sleep(20)
    written, begin = len(roof.times[3]), time.monotonic()
    roof.dead = set()
    until(lambda: len(roof.times[3]) > written, True, 15)
    took = time.monotonic() - begin
    counts.tell(what, f"it is written after {took:.2f} s")
    counts.note(f"{what}: it is written again", took <= within(8), (took, site.service.lines))
    counts.note(f"{what}: so say the lines", [it for it in site.told("device") if "inv3" in it][1:] == ["device inv3 lost Silent", "device inv3 back"], site.service.lines)
    site.end()


def play_lone(counts, program, folder):
    """A device that is alone on its connection: one request without an answer is enough, and it has all of its time."""
    what, roof = "a device alone is silent for 3 s", Roof()
    site = Site(program, folder, [roof])
    roof.are_written()
    begin, roof.dead = time.monotonic(), {1}
    until(lambda: site.told("lost") != [], True)
    took = time.monotonic() - roof.unanswered[0]
    counts.note(f"{what}: it is told lost once a request isn't answered in a second", len(roof.unanswered) == 1 and 1 <= took < within(1 + SLACK), (took, site.service.lines))
    time.sleep(max(0, begin + 3 - time.monotonic()))
    written, begin, roof.dead = len(roof.times[1]), time.monotonic(), set()
    until(lambda: len(roof.times[1]) > written, True, 15)
    took = time.monotonic() - begin
    counts.tell(what, f"it is written after {took:.2f} s")
    counts.note(f"{what}: it is written again", took <= within(4 + PERIOD + SLACK), (took, site.service.lines))
    counts.note(f"{what}: so say the lines", site.told("device")[1:] == ["device inv1 lost Silent", "device inv1 back"], site.service.lines)
    site.end()


def play_gone(counts, program, folder):
    """Nothing listens at an address for a while: it is dialed again, at last each 5 s."""
    what, roof = "a device is gone for 12 s", Roof()
    site = Site(program, folder, [roof])
    roof.are_written()
    roof.gone()
    time.sleep(12)
    written, begin = len(roof.times[1]), time.monotonic()
    roof.open()
    until(lambda: len(roof.times[1]) > written, True, 15)
    took = time.monotonic() - begin
    counts.tell(what, f"it is written after {took:.2f} s")
    counts.note(f"{what}: it is written again", took <= within(5 + PERIOD + SLACK), (took, site.service.lines))
    counts.note(f"{what}: so say the lines", site.told("device") == ["device inv1 " + it for it in (FOUND, "lost Down", FOUND)], site.service.lines)
    site.end()


def play_night(counts, program, folder):
    """A device that sleeps at night is gone, and then one that doesn't; what is missing of the first is no alarm."""
    what, roof = "a device sleeps", Roof(2)
    site = Site(program, folder, [roof], keys={1: "sleeps = 8\n"}, served=SUM)
    roof.are_written()
    until(lambda: [it.get("asleep") for it in site.status()["devices"]], [False, None])
    client = Client(site.service.port())
    sums = lambda: [client.read(it)[0] for it in SUMS]
    counts.note(f"{what}: both sums are shown", until(sums, [2003, 2003]) == [2003, 2003], sums())
    roof.dead = {1}
    counts.note(f"{what}: that is told", site.service.has(r"\S+ device inv1 asleep"), site.service.lines)
    until(lambda: site.status()["devices"][0]["asleep"], True)
    stand = site.status()
    counts.note(f"{what}: it stands as lost, and nothing is wrong", stand["devices"][0]["lost"] and stand["alarms"] == [], stand["alarms"])
    counts.note(f"{what}: the partial sum goes on without it", until(sums, [0x8000, 1002]) == [0x8000, 1002], sums())
    counts.note(f"{what}: no line says that its input or the sum is missing", site.told("missing") + site.told("hidden") == [], site.service.lines)
    roof.dead = {1, 2}
    until(lambda: len(site.status()["alarms"]), 3)
    alarms = sorted(it["name"] for it in site.status()["alarms"])
    counts.note(f"{what}: no sum is left", until(sums, [0x8000, 0x8000]) == [0x8000, 0x8000], sums())
    counts.note(f"{what}: the other one's loss is wrong", alarms == ["inv2", "lim2", "w2"], site.status()["alarms"])
    written, roof.dead = len(roof.times[1]), set()
    until(lambda: len(roof.times[1]) > written + 1, True, 35)
    until(lambda: site.status()["alarms"], [])
    counts.note(f"{what}: it is written again", len(roof.times[1]) > written, site.service.lines)
    lines = [it for it in site.told("device") if "inv1" in it]
    counts.note(f"{what}: so say the lines", lines == ["device inv1 " + it for it in (FOUND, "lost Silent", "asleep", "back")], lines)
    counts.note(f"{what}: it is awake", [it.get("asleep") for it in site.status()["devices"]] == [False, None], site.status()["devices"])
    site.end()


def play_refused(counts, program, folder):
    """A device answers a model's registers with an exception: that is told once."""
    what, roof = "a model is refused", Refusing({40070})
    site = Site(program, folder, [roof])
    counts.note(f"{what}: that is told", site.service.has(r"\S+ device inv1 refuses 3 40070 4"), site.service.lines)
    time.sleep(within(4))
    lines = site.told("refuses")
    counts.note(f"{what}: once", len(lines) == 1, lines)
    counts.note(f"{what}: its input is missing, and it isn't lost", site.told("missing") != [] and site.told("lost") == [], site.service.lines)
    refused = site.status()["devices"][0]["refused"]
    counts.note(f"{what}: so says the status file", refused == [{"address": 40070, "code": 4}], refused)
    site.service.end()
    ran = survey(program, site.path)
    counts.note(f"{what}: and a survey", "device inv1 refuses 3 40070 4\n" in re.sub(" +", " ", ran.stdout), ran)
    site.end()


def play_stopped(counts, program, folder):
    """The service itself gets no time for longer than an answer may take: what came meanwhile is heard before it is called late."""
    what, roof = "the service is stopped for 2 s, five times", Roof(1, 0.3)
    site = Site(program, folder, [roof], len(OUTPUTS))
    counts.note(f"{what}: it is written before", roof.are_written(), site.service.lines)
    for _ in range(5):
        site.service.process.send_signal(signal.SIGSTOP)
        time.sleep(2)
        site.service.process.send_signal(signal.SIGCONT)
        time.sleep(1.1)
    counts.note(f"{what}: that is told", site.told("late") != [], site.service.lines)
    counts.note(f"{what}: no device is lost by it", site.told("device") == names((1,), FOUND), site.service.lines)
    site.end()


PLAYS = (
    partial(play_dying, count=10, most=2 * PERIOD + SLACK),
    partial(play_dying, count=32, most=5),
    partial(play_begun, count=10, dead=range(1, 6), most=4.5),
    partial(play_begun, count=10, dead=range(1, 11, 2), most=4.5),
    partial(play_begun, count=32, dead=range(1, 17), most=12),
    partial(play_begun, count=32, dead=range(1, 33, 2), most=10),
    partial(play_alone, delay=0.24),
    partial(play_alone, delay=0.27),
    partial(play_alone, delay=0.3),
    play_pace,
    play_each,
    play_night,
    play_refused,
    play_idle,
    play_lag,
    play_told,
    play_back,
    play_lone,
    play_gone,
    play_stopped,
)
LANES = 4


if __name__ == "__main__":
    sys.exit(try_alone(sys.argv[1:], PLAYS, LANES))

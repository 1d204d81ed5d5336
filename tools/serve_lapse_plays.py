"""Plays of tools/try-serve on what lapses unless clients write it again, and on outputs that aren't written again.

  tools/serve_lapse_plays.py [PROGRAM]     these plays alone
"""

import json
import subprocess
import sys
import time

sys.dont_write_bytecode = True
from serve_parts import TOP, Client, Service, close, files_of, state_of, text_of, try_alone, until, within
from serve_plays import OwnDevice, inverter, put

# registers of model 123 of the gateway, and the limit of a device at the same place
LIMIT, WINDOW, RETURN = 40127, 40128, 40129
UNSET = 0xFFFF
TAG = """
[[tag]]
name = "{name}"
access = "set"
model = 123
point = "{point}"
type = "DINT"
exponent = 0
low = 0
high = 1000
default = 0
"""


class Site:
    """The site of the examples over two devices of this process, with some keys more."""

    def __init__(self, program, folder, tag="", device="", more=""):
        self.program, self.folder = program, folder
        self.devices = [OwnDevice({1: inverter(watts)}) for watts in (4000, 2500)]
        text = text_of(files_of(folder, self.devices))
        text = text.replace("default = 50\n", f"default = 50\n{tag}\n").replace('name = "inv1"\nunit = 1\n', f'name = "inv1"\nunit = 1\n{device}\n', 1)
        self.path, self.status = put(folder, "own.toml", text + more), f"{folder}/status"

    def serve(self, *more, every="100"):
        words = [self.path, f"{TOP}/examples/limiter.il", "--listen", "127.0.0.1:0", "--every", every, "--status-file", self.status, *more]
        return Service(self.program, words)

    def limit(self):
        """The limit that the first device has."""
        return self.devices[0].units[1][LIMIT]

    def writes(self):
        """The limits that were written to the first device, in order."""
        return [words[0] for _, addr, words in self.devices[0].written if addr == LIMIT]

    def alarms(self):
        """The alarms, except for scans that came late: those are of the machine."""
        text = text_of(self.status)
        alarms = [(it["kind"], it["name"], it["cause"]) for it in json.loads(text)["alarms"]] if text else []
        return [it for it in alarms if it[0] != "round_late"] if text else None

    def end(self):
        for it in self.devices:
            it.gone()


def begin(counts, site, *more):
    """A service whose first device is written, and a client of it."""
    service = site.serve(*more)
    counts.note("its output is written", service.has(r"\S+ output lim1 written") or until(lambda: site.writes() != [], True), service.lines)
    return service, Client(service.port())


def play_lapse(counts, program, folder):
    """A limit holds while a client writes it, and not much longer."""
    site = Site(program, folder, tag="lapse = 2")
    service, client = begin(counts, site)
    counts.note("no alarm at first", until(site.alarms, []) == [], site.alarms())
    counts.note("it is set", client.write(LIMIT, 30)[0] == 6 and service.has(r"\S+ set target 30 was unset by 127.0.0.1:\d+"), service.lines)
    seen, end = set(), time.monotonic() + 4
    while time.monotonic() < end:
        client.write(LIMIT, 30)
        last = time.monotonic()
        seen.add(client.read(LIMIT)[0])
        time.sleep(0.2)
    counts.note("the same number keeps it", seen == {30} and not any("lapsed" in it for it in service.lines), (seen, service.lines))
    counts.note("that is told once", sum(" set target " in it for it in service.lines) == 1, service.lines)
    counts.note("the output has it", site.limit() == 30, site.limit())
    refused = []
    while not any("lapsed" in it for it in service.lines) and time.monotonic() < last + 6:
        refused.append(client.write(LIMIT, 101))
        client.read(LIMIT)
        time.sleep(0.1)
    took = time.monotonic() - last
    counts.note("refused writes don't", set(refused) == {bytes([0x86, 3])} and 1.7 < took < 4, (took, refused))
    counts.note("it lapses", service.has(r"\S+ set target lapsed"), service.lines)
    counts.note("clients read it as unset", client.read(LIMIT) == (UNSET,), client.read(LIMIT))
    counts.note("the output falls back", until(site.limit, 50) == 50, site.limit())
    play_alarm(counts, site, service, client)
    service.end()
    site.end()


def play_alarm(counts, site, service, client):
    """The alarm stands until the tag is written again."""
    counts.note("its alarm", until(site.alarms, [("lapsed", "target", "Lapsed")]) == [("lapsed", "target", "Lapsed")], site.alarms())
    status = json.loads(text_of(site.status))
    sentences = [it["text"] for it in status["alarms"] if it["kind"] == "lapsed"]
    counts.note("its sentence", sentences == ["no client wrote target for 2 s: the program works with its default"], status["alarms"])
    counts.note("it isn't set", status["set"] == {} and status["tags"]["target"] == {"access": "set", "exponent": 0, "default": 50}, status)
    counts.note("it is told once", sum("lapsed" in it for it in service.lines) == 1, service.lines)
    told = len(service.lines)
    counts.note("it is written again", client.write(LIMIT, 30)[0] == 6 and service.has(r"\S+ set target 30 was unset by 127.0.0.1:\d+", behind=told), service.lines)
    counts.note("its alarm is over", until(site.alarms, []) == [], site.alarms())
    tag = json.loads(text_of(site.status))["tags"]["target"]
    counts.note("when it lapses", tag.get("age") in (0, 1) and tag.get("left") == 2 - tag["age"], tag)
    counts.note("the output has it again", until(site.limit, 30) == 30, site.limit())


def play_never(counts, program, folder):
    """An operator who never comes, comes and falls silent; and the same after restarts."""
    site, state = Site(program, folder, tag="lapse = 2"), f"{folder}/state"
    never, lapsed = [("never_set", "target", "NeverSet")], [("lapsed", "target", "Lapsed")]
    service = site.serve()
    counts.note("nobody is missed at first", until(site.alarms, []) == [], site.alarms())
    play_missed(counts, site, service)
    client = Client(service.port())
    counts.note("somebody comes", client.write(LIMIT, 30)[0] == 6 and service.has(r"\S+ set target 30 was unset by 127.0.0.1:\d+"), service.lines)
    counts.note("the alarm is over", until(site.alarms, []) == [], site.alarms())
    counts.note("what was set lapses as always", until(site.alarms, lapsed) == lapsed and service.has(r"\S+ set target lapsed"), service.lines)
    counts.note("and is never set no more", sum("never" in it for it in service.lines) == 1, service.lines)
    service.end()
    service = site.serve()
    play_missed(counts, site, service)
    service.end()
    put(folder, "state", "target=40\nLATER 500\n")
    service = site.serve("--state", state)
    counts.note("what is kept from before lapses", until(site.alarms, lapsed) == lapsed and service.has(r"\S+ set target lapsed"), service.lines)
    counts.note("and counts as set", not any("never" in it for it in service.lines), service.lines)
    counts.note("nothing is kept then", until(lambda: text_of(state), "") == "", text_of(state))
    service.end()
    service = site.serve("--state", state)
    play_missed(counts, site, service)
    service.end()
    site.end()


def play_missed(counts, site, service):
    """Nobody sets the tag for its two seconds: that is told once, and is an alarm from then on."""
    never = [("never_set", "target", "NeverSet")]
    counts.note("nobody came", service.has(r"\S+ set target never set"), service.lines)
    told = [float(it.split()[0]) for it in service.lines if it.endswith(" set target never set")]
    counts.note("that is told once, after its time", len(told) == 1 and 2 <= told[0] < 2 + within(0.5), told)
    counts.note("its alarm", until(site.alarms, never) == never, site.alarms())
    sentences = [it["text"] for it in json.loads(text_of(site.status))["alarms"] if it["kind"] == "never_set"]
    counts.note("in words", sentences == ["no client has written target since the start: the program works with its default"], sentences)


def play_restart(counts, program, folder):
    """A kill and a restart take up the time that was left."""
    site, state = Site(program, folder, tag="lapse = 13"), f"{folder}/state"
    service, client = begin(counts, site, "--state", state)
    client.write(LIMIT, 40)
    counts.note("what is new is kept at once", text_of(state) in ("target=40\nLATER 0\n", "target=40\nLATER 100\n"), text_of(state))
    first = text_of(state)
    time.sleep(8)
    counts.note("not again for some seconds", text_of(state) == first, text_of(state))
    later = until(lambda: text_of(state) != first, True) and text_of(state)
    age = int(later.split()[-1])
    counts.note("its age is kept then", later.startswith("target=40\nLATER ") and 9_000 < age < 12_000, later)
    service.end()
    time.sleep(3)
    service = site.serve("--state", state)
    began = time.monotonic()
    client = Client(service.port())
    counts.note("it is set again", client.read(LIMIT) == (40,), client.read(LIMIT))
    lapsed, took = service.has(r"\S+ set target lapsed", 8), time.monotonic() - began
    counts.note("it has the time that was left", lapsed and 0.7 < took - (13 - age / 1000) + 1 < 3, (took, age, service.lines))
    counts.note("all lines were taken", not any("left out" in it for it in service.lines), service.lines)
    counts.note("it isn't kept any more", until(lambda: text_of(state), "") == "", text_of(state))
    service.end()
    service = site.serve("--state", state)
    counts.note("after a restart nobody had set it", until(site.alarms, []) == [] and Client(service.port()).read(LIMIT) == (UNSET,), service.lines)
    service.end()
    site.end()


def play_lines(counts, program, folder):
    """What never lapses stands first, then what was written longest ago."""
    more = TAG.format(name="window", point="WMaxLimPct_WinTms") + TAG.format(name="back", point="WMaxLimPct_RvrtTms") + "lapse = 60\n"
    site, state = Site(program, folder, tag="lapse = 50", more=more), f"{folder}/state"
    service, client = begin(counts, site, "--state", state)
    client.write(RETURN, 7)
    time.sleep(1)
    client.write(LIMIT, 40)
    time.sleep(0.5)
    client.write(WINDOW, 3)
    lines = text_of(state).splitlines()
    counts.note("the oldest one stands first", lines[:2] + lines[3:4] == ["window=3", "back=7", "target=40"] and len(lines) == 5, lines)
    times = [int(it.split()[1]) for it in (lines[2], lines[4])]
    counts.note("with the times between", 700 <= times[0] < 2500 and 300 <= times[1] < 2000, times)
    service.end()
    put(folder, "state", "window=3\nback=7\nLATER 55000\ntarget=40\nLATER 4000\nLATER soon\nLATER 100000000000\n")
    service = site.serve("--state", state)
    client = Client(service.port())
    for line in ("LATER soon", "LATER 100000000000"):
        counts.note(f"left out: {line}", service.has(rf"\S+ setting {line} left out"), service.lines)
    counts.note("the first one is 59 s old then, and lapses first", service.has(r"\S+ set back lapsed") and client.read(LIMIT, 3) == (40, 3, UNSET), (service.lines, client.read(LIMIT, 3)))
    service.end()
    put(folder, "state", "back=7\nLATER 60000\ntarget=40\nLATER 0\n")
    service = site.serve("--state", state)
    client = Client(service.port())
    counts.note("what is too old isn't set", client.read(LIMIT, 3) == (40, UNSET, UNSET), client.read(LIMIT, 3))
    counts.note("and it is told", service.has(r"\S+ set back lapsed"), service.lines)
    counts.note("the file has it no more", until(lambda: "back" not in text_of(f"{folder}/state"), True), text_of(f"{folder}/state"))
    service.end()
    site.end()


def play_short(counts, program, folder):
    """A lapse of less than two periods is told at the start, and one of two periods isn't."""
    site = Site(program, folder, tag="lapse = 1")
    words = [program, "serve", site.path, f"{TOP}/examples/limiter.il", "--listen", "127.0.0.1:0", "--scans", "1", "--state", f"{folder}/state"]
    for more, told in ((["--every", "501"], True), (["--every", "500"], False), (["--every", "501", "--quiet"], False)):
        ran = subprocess.run([*words, *more], capture_output=True, text=True, check=False, timeout=20)
        line = f"{site.path}: warning: target lapses in 1 s, less than two scans: what clients set may be gone before the program reads it\n"
        line += "  help: write a longer lapse, or begin scans sooner with --every\n"
        counts.note(f"a short lapse by {more}", ran.returncode == 0 and ran.stderr == (line if told else ""), ran)
    site.end()


def play_rewrite(counts, program, folder):
    """An output that the device has isn't written again for a while."""
    site = Site(program, folder, device="rewrite = 3")
    service, client = begin(counts, site, "--verbose")
    until(lambda: len(site.writes()) > 1, True)
    told, first = len(service.lines), len(site.writes())
    time.sleep(1.5)
    scans = [it for it in service.lines[told:] if it.startswith("scan ")]
    counts.note("it isn't written in each scan", len(scans) > 5 and len(site.writes()) == first, (scans, site.writes()))
    # (a scan before which the device wasn't read in time plans nothing for it)
    planned = {int(it.split(" writes ")[1].split()[0]) for it in scans}
    counts.note("what isn't sent counts as written", {2} <= planned <= {0, 2}, scans)
    counts.note("no line says it", not any("unwritten" in it for it in service.lines[told:]), service.lines)
    counts.note("but after a while", until(lambda: len(site.writes()), first + 1) == first + 1, site.writes())
    counts.note("the status file has it as written", state_of(json.loads(text_of(site.status))) == {"value": 50, "state": "written"}, text_of(site.status))
    client.write(LIMIT, 20)
    counts.note("another number is written at once", until(site.limit, 20, 1) == 20, site.writes())
    told = len(service.lines)
    site.devices[0].units[1][LIMIT] = 77
    counts.note("what another one sets is told", service.has(r"\S+ output lim1 differs wrote 20 device 77", behind=told), service.lines)
    counts.note("and written over at once", until(site.limit, 20, 1) == 20, site.limit())
    counts.note("then it agrees", service.has(r"\S+ output lim1 agrees", behind=told), service.lines)
    play_cut(counts, site, service)
    play_cut(counts, site, service, b"\0\1\0")
    play_refusal(counts, site, service, client)
    play_silence(counts, site, service)
    service.end()
    site.end()


def again(counts, what, site, seconds=1.0):
    """The limit is written, without waiting for three seconds since the last time."""
    counts.note(f"{what}: it is written at once", until(site.limit, 20, seconds) == 20, (site.limit(), site.writes()))
    first = len(site.writes())
    time.sleep(1)
    counts.note(f"{what}: and then not again", len(site.writes()) <= first + 1 and site.limit() == 20, site.writes())


def play_cut(counts, site, service, said=b""):
    """A new connection, where the old one was cut while nothing was under way, and maybe bytes that nobody asked for waited there:
    that is no loss, and what the device took over it counts for nothing."""
    told, device = len(service.lines), site.devices[0]
    came = device.came
    until(lambda: time.monotonic() - device.asked_at > 0.015, True)
    for it in list(device.sockets):
        it.sendall(said)
        close(it)
        device.sockets.remove(it)
    device.units[1][LIMIT] = 77
    counts.note("a connection that is cut is made again at once", until(lambda: device.came > came, True, 1), (device.came, service.lines))
    again(counts, "over a new connection", site)
    counts.note("a connection that is cut is no loss", not any("inv1" in it for it in service.lines[told:]), service.lines[told:])


def play_refusal(counts, site, service, client):
    """A write that was refused, and then the number that the device had before."""
    told, device = len(service.lines), site.devices[0]
    device.refuses = 4
    client.write(LIMIT, 60)
    counts.note("it is refused", service.has(r"\S+ output lim1 unwritten Refused 4", behind=told), service.lines)
    counts.note("a number that is refused isn't held back", until(lambda: sum("refused 2" in it or "refused 1" in it for it in service.lines[told:]) > 3, True), service.lines)
    device.units[1][LIMIT] = 77
    client.write(LIMIT, 20)
    device.refuses = None
    again(counts, "after a refusal", site)


def play_silence(counts, site, service):
    """A device that was lost."""
    told, device = len(service.lines), site.devices[0]
    device.silent = True
    counts.note("it is lost", service.has(r"\S+ device inv1 lost Silent", behind=told), service.lines)
    device.units[1][LIMIT] = 77
    device.silent = False
    counts.note("it is back", service.has(r"\S+ device inv1 (back|found .*)", 10, behind=told), service.lines)
    again(counts, "after a loss", site)


PLAYS = (play_lapse, play_never, play_restart, play_lines, play_short, play_rewrite)


if __name__ == "__main__":
    sys.exit(try_alone(sys.argv[1:], PLAYS))

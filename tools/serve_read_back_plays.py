"""Plays of tools/try-serve on devices that acknowledge what is written to them and show something else.

  tools/serve_read_back_plays.py [PROGRAM]     these plays alone
"""

import json
import struct
import subprocess
import sys
import time

sys.dont_write_bytecode = True
from serve_parts import Service, state_of, text_of, try_alone, until
from serve_plays import DEVICE, GATEWAY, OwnDevice, inverter, put

# the limit, of model 123 of the device
LIMIT = 40127
TAGS = """
[[tag]]
name = "lim1"
access = "out"
device = "inv1"
model = 123
point = "WMaxLimPct"
type = "INT"
exponent = 0
low = 0
high = 100
{more}
"""
READ = """
[[tag]]
name = "seen1"
access = "in"
device = "inv1"
model = 123
point = "WMaxLimPct"
type = "INT"
exponent = 0
low = 0
high = 100
default = 100
"""
PROGRAM = """PROGRAM limits
VAR_EXTERNAL
  lim1 : INT;
END_VAR
  LD 40
  ST lim1
END_PROGRAM
"""
# another limit in each scan
MOVING = """PROGRAM limits
VAR_EXTERNAL
  lim1 : INT;
END_VAR
VAR
  level : INT (40..60) := 40;
END_VAR
  LD level
  SUB 39
  MOD 21
  ADD 40
  ST level
  ST lim1
END_PROGRAM
"""


class OddDevice(OwnDevice):
    """It acknowledges each write; while it is `deaf` nothing comes of it, and the limit `clears` to 0 where it is told to."""

    def __init__(self, units, deaf=False, clears=False):
        self.deaf, self.clears, self.taken = deaf, clears, []
        super().__init__(units)

    def reply(self, unit, pdu):
        if pdu[0] != 16 or not (self.deaf or self.clears):
            return super().reply(unit, pdu)
        addr, count = struct.unpack(">HH", pdu[1:5])
        self.taken.append((addr, struct.unpack(f">{count}H", pdu[6:])))
        if self.clears:
            self.units[unit][addr] = 0
        return pdu[:5]


class Site:
    """A service that writes the limit of such a device, and its status file."""

    def __init__(self, program, folder, device, name="site", more="", keys="", il=PROGRAM, tags=""):
        self.device, self.status = device, f"{folder}/{name}.status"
        text = GATEWAY + DEVICE.format(n=1) + f'address = "{device.address()}"\n{keys}\n' + TAGS.format(more=more) + tags
        words = [put(folder, f"{name}.toml", text), put(folder, f"{name}.il", il), "--listen", "127.0.0.1:0", "--every", "100", "--status-file", self.status]
        self.service = Service(program, words)

    def output(self):
        """What the status file says of the limit."""
        text = text_of(self.status)
        return state_of(json.loads(text)) if text else None

    def alarms(self):
        """The alarms, except for scans that came late: those are of the machine."""
        text = text_of(self.status)
        return [it for it in json.loads(text)["alarms"] if it["kind"] != "round_late"] if text else None

    def told(self):
        """What is told of the output, in order."""
        return [line.split(" ", 1)[1] for line in self.service.lines if " output lim1 " in line]

    def end(self):
        self.service.end()
        self.device.gone()


def play_deaf(counts, program, folder):
    """A device that acknowledges each write and does nothing: a line, an alarm, and a write in each scan, until it does it."""
    device = OddDevice({1: inverter(5000)}, deaf=True)
    site = Site(program, folder, device, keys="rewrite = 600")
    counts.note("it is told", site.service.has(r"\S+ output lim1 differs wrote 40 device 100"), site.service.lines)
    counts.note("after that it is written", site.told() == ["output lim1 written", "output lim1 differs wrote 40 device 100"], site.told())
    wanted = {"value": 40, "state": "differs", "wrote": "40", "device": "100"}
    counts.note("so says the status", until(site.output, wanted) == wanted, text_of(site.status))
    alarms = until(lambda: len(site.alarms() or []), 1) and site.alarms()
    counts.note("it is an alarm", [(it["kind"], it["name"], it["cause"], it["wrote"], it["device"]) for it in alarms] == [("differs", "lim1", "Differs", "40", "100")], alarms)
    since = [it["since"] for it in alarms]
    first = len(device.taken)
    counts.note("it is written in each scan", until(lambda: len(device.taken) > first + 5, True), device.taken)
    counts.note("and told once", len(site.told()) == 2, site.told())
    counts.note("since it began", [it["since"] for it in site.alarms()] == since, site.alarms())
    device.units[1][LIMIT] = 70
    wanted = {"value": 40, "state": "differs", "wrote": "40", "device": "70"}
    counts.note("the status has the present number", until(site.output, wanted) == wanted, text_of(site.status))
    counts.note("which isn't told again", len(site.told()) == 2, site.told())
    device.deaf = False
    counts.note("it agrees", site.service.has(r"\S+ output lim1 agrees"), site.service.lines)
    counts.note("the alarm is over", until(site.alarms, []) == [], site.alarms())
    wanted = {"value": 40, "state": "written"}
    counts.note("it is written again", until(site.output, wanted) == wanted, text_of(site.status))
    first = len(device.written)
    time.sleep(0.7)
    counts.note("and is left out from now on", len(device.written) <= first + 1, device.written)
    device.units[1][LIMIT] = 77
    counts.note("what another one sets is told", site.service.has(r"\S+ output lim1 differs wrote 40 device 77"), site.service.lines)
    counts.note("and is written over", until(lambda: device.units[1][LIMIT], 40) == 40, device.units[1][LIMIT])
    counts.note("then it agrees", until(lambda: site.told()[-1], "output lim1 agrees") == "output lim1 agrees", site.told())
    site.end()


def play_moving(counts, program, folder):
    """Where another number is written in each scan, it is told once."""
    device = OddDevice({1: inverter(5000)}, deaf=True)
    site = Site(program, folder, device, il=MOVING)
    counts.note("it is told", site.service.has(r"\S+ output lim1 differs wrote \d\d device 100"), site.service.lines)
    seen = set()
    until(lambda: seen.add((site.output() or {}).get("wrote")) or len(seen) > 3, True)
    counts.note("the status has the present numbers", len(seen) > 3, seen)
    counts.note("it is told once", sum("differs" in it for it in site.told()) == 1, site.told())
    site.end()


def play_left_out(counts, program, folder):
    """Where the site file says so nothing is compared; a point that clears is told once, or not at all."""
    device = OddDevice({1: inverter(5000)}, deaf=True)
    site = Site(program, folder, device, "deaf", more="read_back = false", keys="rewrite = 600")
    counts.note("it is written", until(site.output, {"value": 40, "state": "written"}) == {"value": 40, "state": "written"}, text_of(site.status))
    time.sleep(0.7)
    counts.note("nothing is told, and nothing written again", site.told() in ([], ["output lim1 written"]) and len(device.taken) == 1, (site.told(), device.taken))
    counts.note("nothing is wrong", site.alarms() == [], site.alarms())
    site.end()
    for more, told in (("", True), ("read_back = true", True), ("read_back = false", False)):
        device = OddDevice({1: inverter(5000)}, clears=True)
        site = Site(program, folder, device, f"clears{len(more)}", more=more)
        counts.note(f"{more}: it is written", until(lambda: len(device.taken) > 5, True), device.taken)
        differs = [it for it in site.told() if "differs" in it]
        counts.note(f"{more}: a point that clears", differs == (["output lim1 differs wrote 40 device 0"] if told else []), site.told())
        site.end()


def play_lost(counts, program, folder):
    """A loss ends what was told of how a device shows an output; after it that is told again."""
    device = OddDevice({1: inverter(5000)}, deaf=True)
    site = Site(program, folder, device)
    counts.note("it is told", site.service.has(r"\S+ output lim1 differs wrote 40 device 100"), site.service.lines)
    device.silent = True
    counts.note("it is lost", site.service.has(r"\S+ device inv1 lost Silent"), site.service.lines)
    counts.note("its output isn't written", until(lambda: (site.output() or {}).get("state"), "unwritten") == "unwritten", text_of(site.status))
    counts.note("that is the alarm", until(lambda: [it["kind"] for it in site.alarms()], ["device_lost", "output_unwritten"]) == ["device_lost", "output_unwritten"], site.alarms())
    told = len(site.service.lines)
    device.silent = False
    counts.note("it is told again", site.service.has(r"\S+ output lim1 differs wrote 40 device 100", 10, behind=told), site.service.lines)
    site.end()


def play_refused_key(counts, program, folder):
    """A key that is neither true nor false, or stands at another tag."""
    for name, more, tags in (("kind", "read_back = 1", ""), ("tag", "", READ + "read_back = true\n")):
        text = GATEWAY + DEVICE.format(n=1) + 'address = "127.0.0.1:1"\n' + TAGS.format(more=more) + tags
        site, il = put(folder, f"{name}.toml", text), put(folder, f"{name}.il", PROGRAM)
        words = f"tag '{'lim1' if name == 'kind' else 'seen1'}' has a 'read_back' that is neither true nor false, or is no 'out' tag"
        ran = subprocess.run([program, "check", site, il], capture_output=True, text=True, check=False, timeout=20)
        counts.note(f"{name}: check warns", ran.returncode == 0 and f"{site}: warning: {words}: 'serve' refuses it\n" in ran.stderr, ran)
        ran = subprocess.run([program, "serve", site, il, "--listen", "127.0.0.1:0", "--scans", "1"], capture_output=True, text=True, check=False, timeout=20)
        counts.note(f"{name}: serve refuses", ran.returncode == 2 and words in ran.stderr, ran)


PLAYS = (play_deaf, play_moving, play_left_out, play_lost, play_refused_key)

if __name__ == "__main__":
    sys.exit(try_alone(sys.argv[1:], PLAYS))

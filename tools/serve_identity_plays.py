"""Plays of tools/try-serve on devices that are others than the site file says.

  tools/serve_identity_plays.py [PROGRAM]     these plays alone
"""

import json
import subprocess
import sys
import time

sys.dont_write_bytecode = True
from serve_parts import Service, close, text_of, try_alone, until
from serve_plays import BASE, DEVICE, GATEWAY, OwnDevice, inverter, put
from serve_survey import LIMIT_FACTOR, MAKER, MODEL, SERIAL, TAG, WATTS, survey, words_of

# how many plays are tried side by side: most of them wait
LANES = 3
# the read of a common model from its ID on
COMMON = (BASE + 2, 66)
LIMIT = {"access": "out", "model": 123, "point": "WMaxLimPct", "kind": "INT", "exponent": 0, "low": 0, "high": 100}
PROGRAM = """PROGRAM limits
VAR_EXTERNAL
  lim1 : INT;
  lim2 : INT;
END_VAR
  LD 40
  ST lim1
  LD 60
  ST lim2
END_PROGRAM
"""
ONE = """PROGRAM limits
VAR_EXTERNAL
  lim1 : INT;
END_VAR
  LD 40
  ST lim1
END_PROGRAM
"""


def plate(serial, maker="Acme", model="X 10"):
    """The registers of the texts of a common model."""
    none = {at + n: 0 for at in (MAKER, MODEL, SERIAL) for n in range(16)}
    return none | words_of(maker, MAKER) | words_of(model, MODEL) | words_of(serial, SERIAL)


class Named(OwnDevice):
    """An inverter of this serial number; it keeps what was read of it."""

    def __init__(self, serial, **texts):
        self.read = []
        super().__init__({1: inverter(1000) | {LIMIT_FACTOR: 0} | plate(serial, **texts)})

    def reply(self, unit, pdu):
        if pdu[0] == 3:
            self.read.append((pdu[1] << 8 | pdu[2], pdu[3] << 8 | pdu[4]))
        return super().reply(unit, pdu)

    def becomes(self, serial):
        """Another device stands at its address, to which a connection has to be made."""
        self.units[1].update(plate(serial))
        for it in self.sockets:
            close(it)
        self.sockets = []


class Site:
    """A service on such devices, each with its own keys in the site file, and its status file."""

    def __init__(self, program, folder, devices, keys, name="site"):
        self.status = f"{folder}/{name}.status"
        self.path = put(folder, f"{name}.toml", site_text(devices, keys))
        words = [self.path, put(folder, f"{name}.il", PROGRAM if len(devices) == 2 else ONE), "--listen", "127.0.0.1:0", "--every", "100", "--status-file", self.status]
        self.service = Service(program, words)

    def has(self, line, seconds=5.0, behind=0):
        return self.service.has(rf"\S+ {line}", seconds, behind)

    def told(self, what):
        """The lines of devices with these words, in order."""
        return [line.split(" ", 1)[1] for line in self.service.lines if " device " in line and what in line]

    def devices(self):
        """What the status file says of who the devices are."""
        text = text_of(self.status)
        return [(it.get("another"), it.get("said")) for it in json.loads(text)["devices"]] if text else None

    def alarms(self):
        """The alarms, except for scans that came late: those are of the machine."""
        text = text_of(self.status)
        return [(it["kind"], it["name"], it["cause"]) for it in json.loads(text)["alarms"] if it["kind"] != "round_late"] if text else None


def site_text(devices, keys):
    text = GATEWAY
    for n, (device, own) in enumerate(zip(devices, keys), 1):
        text += DEVICE.format(n=n) + f'remote_unit = 1\naddress = "{device.address()}"\n{own}\n'
    for n in range(1, len(devices) + 1):
        text += TAG.format(name=f"w{n}", n=n, **WATTS) + TAG.format(name=f"lim{n}", n=n, **LIMIT)
    return text


def said(serial, maker="Acme", model="X 10"):
    return {"maker": maker, "type": model, "serial": serial}


def play_swapped(counts, program, folder):
    """Two devices whose addresses are swapped: neither is written, until the site file is mended."""
    devices, keys = [Named("A1"), Named("B2")], ['serial = "A1"', 'serial = "B2"']
    site = Site(program, folder, devices[::-1], keys)
    counts.note("the first is another", site.has('device inv1 is another SN "B2"'), site.service.lines)
    counts.note("so is the second", site.has('device inv2 is another SN "A1"'), site.service.lines)
    wanted = [(True, said("B2")), (True, said("A1"))]
    counts.note("the status says so", until(site.devices, wanted) == wanted, text_of(site.status))
    wrong = [("another", "inv1", "Another"), ("another", "inv2", "Another")]
    rest = [("input_missing", "w1", "NoBlock"), ("input_missing", "w2", "NoBlock"), ("output_unwritten", "lim1", "NoBlock"), ("output_unwritten", "lim2", "NoBlock")]
    counts.note("and what is wrong", until(site.alarms, wrong + rest) == wrong + rest, site.alarms())
    time.sleep(12)
    counts.note("it is told once", len(site.told(" is another ")) == 2, site.service.lines)
    counts.note("nothing is written to either", not devices[0].written and not devices[1].written, [it.written for it in devices])
    counts.note("neither is found", site.told(" found ") == [] and site.told(" lost ") == [], site.service.lines)
    site.service.end()
    site = Site(program, folder, devices, keys, "mended")
    counts.note("after the site file is mended both are found", all(site.has(f"device inv{n} found 1 103 123") for n in (1, 2)), site.service.lines)
    wanted = [(False, said("A1")), (False, said("B2"))]
    counts.note("the status says who they are", until(site.devices, wanted) == wanted, text_of(site.status))
    counts.note("nothing is wrong", until(site.alarms, []) == [], site.alarms())
    limits = lambda: [it.written[-1][2] if it.written else None for it in devices]
    counts.note("each gets its limit", until(limits, [(40,), (60,)]) == [(40,), (60,)], limits())
    site.service.end()
    for it in devices:
        it.gone()


def play_foreign(counts, program, folder):
    """Another device comes at the address of one that was the right one, and goes again."""
    device = Named("A1")
    site = Site(program, folder, [device], ['serial = "A1"'])
    counts.note("the right one is written", until(lambda: len(device.written) > 3, True), site.service.lines)
    counts.note("its common model was read once", device.read.count(COMMON) == 1, device.read)
    device.becomes("C3")
    time.sleep(0.05)
    written = len(device.written)
    counts.note("another one is told", site.has('device inv1 is another SN "C3"'), site.service.lines)
    time.sleep(1)
    counts.note("nothing is written to it", len(device.written) == written, device.written[written:])
    wrong = [("another", "inv1", "Another"), ("input_missing", "w1", "NoBlock"), ("output_unwritten", "lim1", "NoBlock")]
    counts.note("that is an alarm", until(site.alarms, wrong) == wrong, site.alarms())
    told = len(site.service.lines)
    device.becomes("D4")
    counts.note("yet another one is told", site.has('device inv1 is another SN "D4"', 12, behind=told), site.service.lines)
    device.becomes("A1")
    counts.note("the right one is found again", site.has("device inv1 found 1 103 123", 12, behind=told), site.service.lines)
    counts.note("and written", until(lambda: len(device.written) > written + 3, True), site.service.lines)
    counts.note("nothing is wrong", until(site.alarms, []) == [], site.alarms())
    counts.note("each was told once", site.told(" is another ") == ['device inv1 is another SN "C3"', 'device inv1 is another SN "D4"'], site.service.lines)
    site.service.end()
    device.gone()


def play_after_loss(counts, program, folder):
    """A device falls silent, and another one comes in its place: that is the alarm, and no more the loss."""
    device = Named("A1")
    site = Site(program, folder, [device], ['serial = "A1"'])
    counts.note("the right one is written", until(lambda: len(device.written) > 3, True), site.service.lines)
    device.silent = True
    counts.note("it is lost", site.has("device inv1 lost Silent"), site.service.lines)
    device.silent = False
    device.becomes("C3")
    counts.note("another one is told", site.has('device inv1 is another SN "C3"', 12), site.service.lines)
    kinds = lambda: [kind for kind, name, _ in site.alarms() or [] if name == "inv1"]
    counts.note("that is the alarm", until(kinds, ["another"]) == ["another"], site.alarms())
    site.service.end()
    device.gone()


def play_right(counts, program, folder):
    """Devices that say what they must, each key by itself; and one that must say nothing, of which nothing more is read."""
    for keys in ('serial = "SN 1"', 'maker = "Acme"', 'type = "X 10"', 'serial = "SN 1"\nmaker = "Acme"\ntype = "X 10"'):
        device = Named("SN 1", model="X 10  ")
        site = Site(program, folder, [device], [keys])
        counts.note(f"{keys}: it is written", until(lambda: len(device.written) > 2, True), site.service.lines)
        counts.note(f"{keys}: no other one is told", site.told(" another ") == [] and until(site.devices, [(False, said("SN 1"))]) == [(False, said("SN 1"))], site.service.lines)
        site.service.end()
        device.gone()
    device = Named("SN 1")
    site = Site(program, folder, [device], [""])
    counts.note("without keys it is written", until(lambda: len(device.written) > 2, True), site.service.lines)
    counts.note("its common model isn't read, and isn't said", COMMON not in device.read and site.devices() == [(None, None)], (device.read, site.devices()))
    site.service.end()
    device.gone()


def play_units(counts, program, folder):
    """Two units behind one address, of which one is another; a device that sleeps doesn't sleep while it is another one."""
    device = Named("A1")
    device.units[2] = inverter(2000) | {LIMIT_FACTOR: 0} | plate("B2")
    text = site_text([device, device], ['serial = "A1"', 'serial = "C3"\nsleeps = 17'])
    site = put(folder, "units.toml", text.replace('name = "inv2"\nunit = 2\nremote_unit = 1', 'name = "inv2"\nunit = 2\nremote_unit = 2'))
    status = f"{folder}/units.status"
    service = Service(program, [site, put(folder, "units.il", PROGRAM), "--listen", "127.0.0.1:0", "--every", "100", "--status-file", status])
    counts.note("the second is another", service.has(r'\S+ device inv2 is another SN "B2"'), service.lines)
    counts.note("the first is written", until(lambda: len(device.written) > 5, True), device.written)
    counts.note("the second isn't", {unit for unit, _, _ in device.written} == {1}, device.written)
    wrong = lambda: [it["kind"] for it in json.loads(text_of(status))["alarms"] if it["name"] == "inv2"]
    counts.note("it is an alarm", wrong() == ["another"], text_of(status))
    counts.note("it isn't asleep", not any("asleep" in line for line in service.lines), service.lines)
    service.end()
    device.gone()


def play_other_words(counts, program, folder):
    """Another maker, another type, and a device that says nothing."""
    cases = (
        ("maker", Named("A1", maker="Other"), 'serial = "A1"\nmaker = "Acme"', 'Mn "Other"'),
        ("type", Named("A1", model="X 20"), 'serial = "A1"\nmaker = "Acme"\ntype = "X 10"', 'Md "X 20"'),
        ("length", Named("A12"), 'serial = "A1"', 'SN "A12"'),
        ("letters", Named("a\n1"), 'serial = "A1"', r'SN "a\\u\{a\}1"'),
        ("none", Named(""), 'serial = "A1"', "SN -"),
        ("unread", Named("A1"), 'serial = "A1"', "SN -"),
    )
    del cases[-1][1].units[1][SERIAL + 15]
    for name, device, keys, text in cases:
        site = Site(program, folder, [device], [keys], name)
        counts.note(f"{name}: it is told", site.has(f"device inv1 is another {text}"), site.service.lines)
        time.sleep(0.5)
        counts.note(f"{name}: nothing is written", not device.written, device.written)
        site.service.end()
        device.gone()
    counts.note("what isn't said is null", site.devices() == [(True, None)], text_of(site.status))


def play_refused_key(counts, program, folder):
    """Texts that no device can say are refused by `serve` and `survey`, and `check` warns of them; `run` and `map` ask nothing."""
    device = Named("A1")
    bad = "isn't 1 to 32 bytes, without control characters or a blank at either end"
    for name, key, words in (("kind", "serial = 1", "has a 'serial' that is no text"), ("empty", 'maker = ""', f"has a 'maker' that {bad}"), ("long", f'type = "{"x" * 33}"', f"has a 'type' that {bad}")):
        site, il = put(folder, f"{name}.toml", site_text([device], [key])), put(folder, f"{name}.il", ONE)
        ran = subprocess.run([program, "check", site, il], capture_output=True, text=True, check=False, timeout=20)
        counts.note(f"{name}: check warns", ran.returncode == 0 and f"{site}: warning: device 'inv1' {words}: 'serve' refuses it\n" in ran.stderr, ran)
        for command in (["serve", site, il, "--listen", "127.0.0.1:0", "--scans", "1"], ["survey", site]):
            ran = subprocess.run([program, *command], capture_output=True, text=True, check=False, timeout=20)
            counts.note(f"{name}: {command[0]} refuses", ran.returncode == 2 and f"device 'inv1' {words}" in ran.stderr, ran)
    counts.note("nothing was asked", device.came == 0, device.came)
    device.gone()


def play_survey(counts, program, folder):
    """What `survey` says of devices that fit, are swapped, are others, or of which the site file says nothing."""
    devices = [Named("A1"), Named('B"2', model="X 20")]

    def rows(keys, order=devices):
        ran = survey(program, put(folder, "asked.toml", site_text(order, keys)))
        return [line for line in ran.stdout.splitlines() if line.startswith("identity ")], ran.stdout.splitlines()[-1]

    fits, swapped = ['serial = "A1"\ntype = "X 10"', r'serial = "B\"2"'], [f"{it.address()} unit 1; look whether their addresses or units are swapped" for it in devices]
    told = rows(fits)
    counts.note("they fit", told == (['identity inv1 SN "A1" fits', 'identity inv1 Md "X 10" fits', r'identity inv2 SN "B\"2" fits'], "nothing is wrong"), told)
    told = rows(fits, devices[::-1])
    counts.note("they are swapped", told == ([
        rf'identity inv1 SN "B\"2" isn' + f"'t \"A1\": that is what inv2 says, at {swapped[0]}",
        "identity inv1 Md \"X 20\" isn't \"X 10\": look which device is there, or have the site file say what it says",
        rf'identity inv2 SN "A1" isn' + f"'t " + rf'"B\"2": that is what inv1 says, at {swapped[1]}'], "3 things are wrong"), told)
    told = rows(['serial = "C3"', 'maker = "Acme"'])
    counts.note("another one, and one without a serial in the site file", told == ([
        "identity inv1 SN \"A1\" isn't \"C3\": look which device is there, or have the site file say what it says",
        r'identity inv2 SN "B\"2": with serial = "B\"2" in the site file serve writes to no other one in its place',
        'identity inv2 Mn "Acme" fits'], "1 thing is wrong"), told)
    devices[0].units[1].update(plate(""))
    told = rows(['', 'serial = "B\\"2"'])
    counts.note("one that says none", told == ([r'identity inv2 SN "B\"2" fits'], "nothing is wrong"), told)
    counts.note("nothing was written", not devices[0].written and not devices[1].written, [it.written for it in devices])
    for it in devices:
        it.gone()


PLAYS = (play_swapped, play_foreign, play_after_loss, play_right, play_units, play_other_words, play_refused_key, play_survey)

if __name__ == "__main__":
    sys.exit(try_alone(sys.argv[1:], PLAYS, LANES))

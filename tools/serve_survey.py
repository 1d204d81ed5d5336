"""Plays of tools/try-serve on `sunsite survey`: what it says of devices that are well or not, and that it writes nothing."""

import re
import subprocess
import time

from serve_parts import TOP
from serve_plays import BASE, DEVICE, GATEWAY, SUNS, OwnDevice, inverter, put

TAG = """
[[tag]]
name = "{name}"
access = "{access}"
device = "inv{n}"
model = {model}
point = "{point}"
type = "{kind}"
exponent = {exponent}
low = {low}
high = {high}
"""
WATTS = {"access": "in", "model": 103, "point": "W", "kind": "DINT", "exponent": 0, "low": -16000, "high": 16000}
LIMIT = {"access": "out", "n": 1, "model": 123, "point": "WMaxLimPct", "kind": "INT", "exponent": 0, "low": 0, "high": 100}
SUM = """
[[served]]
model = 103
point = "W"
sum = ["w1", "w2"]

[[served]]
model = 103
point = "W_SF"
value = 0
"""
# a model of a maker's own, with a unit of its point X
OWN_MODEL = """{{"id": 64001, "group": {{"points": [
  {{"name": "ID", "type": "uint16", "size": 1}},
  {{"name": "L", "type": "uint16", "size": 1}},
  {{"name": "X", "type": "uint16", "size": 1, "units": "{unit}"}},
  {{"name": "Y", "type": "uint16", "size": 1}}]}}}}
"""
# a model 704 whose definition is handed in, with a set point and the time after which that ends, and without the time
DER_MODEL = """{{"id": 704, "group": {{"points": [
  {{"name": "ID", "type": "uint16", "size": 1}},
  {{"name": "L", "type": "uint16", "size": 1}},
  {{"name": "WSet", "type": "int32", "size": 2, "access": "RW"}},
  {{"name": "{time}", "type": "uint32", "size": 2, "access": "RW"}}]}}}}
"""
# registers of `inverter`: the texts of its common model, its power with the factor, the times after which its limit and its power
# factor end, and the factor of its limit
MAKER, MODEL, SERIAL = BASE + 4, BASE + 20, BASE + 52
POWER, FACTOR, LIMIT_FACTOR = BASE + 84, BASE + 85, BASE + 145
LIMIT_TIME, COSINE_TIME = BASE + 129, BASE + 134
NOTHING = "nothing is wrong\n"


class Recorder(OwnDevice):
    """A device that keeps the functions by which it was asked; one of its units may be silent."""

    def __init__(self, units, silent_unit=None):
        self.functions, self.silent_unit = set(), silent_unit
        super().__init__(units)

    def answer(self, it, number, unit, pdu):
        self.functions.add(pdu[0])
        if unit != self.silent_unit:
            super().answer(it, number, unit, pdu)


def words_of(text, addr):
    """The registers of a text."""
    padded = text.encode() + b"\0" * (len(text) % 2)
    return {addr + n // 2: padded[n] << 8 | padded[n + 1] for n in range(0, len(padded), 2)}


def registers(watts, more=None):
    """An inverter with a maker, a model and a serial number, whose limit ends after a minute."""
    texts = {MAKER + n: 0 for n in range(16)} | {MODEL + n: 0 for n in range(16)} | {SERIAL + n: 0 for n in range(16)}
    return inverter(watts) | texts | words_of("Acme", MAKER) | words_of("X 10  ", MODEL) | words_of("12\n3", SERIAL) | {LIMIT_TIME: 60} | (more or {})


def site_of(folder, devices, limit=None, tags=None):
    """A site of these devices, each at its own address as unit 1."""
    text = GATEWAY + "".join(DEVICE.format(n=n) + f'remote_unit = 1\naddress = "{address}"\n' for n, address in enumerate(devices, 1))
    for n, tag in enumerate(tags or [WATTS] * len(devices), 1):
        text += TAG.format(name=f"w{n}", n=n, **tag)
    text += TAG.format(name="lim1", **LIMIT | (limit or {})) + (SUM if len(devices) == 2 else "")
    return put(folder, "surveyed.toml", text)


def survey(program, *words):
    """What a survey prints; its rows of paces stand apart, since they have times."""
    ran = subprocess.run([program, "survey", *words], capture_output=True, text=True, check=False, timeout=30)
    ran.paces = re.findall(r"(?m)^pace .*\n", ran.stdout)
    ran.stdout = re.sub(r"(?m)^pace .*\n", "", ran.stdout)
    return ran


def found(n, device):
    return f'device inv{n} {device.address()} unit 1 found 1 103 123 Mn "Acme" Md "X 10" SN "12\\u{{a}}3"\n'


def try_well(counts, program, folder):
    devices = [Recorder({1: registers(4000, {LIMIT_FACTOR: 0})}), Recorder({1: registers(2500)})]
    site = site_of(folder, [it.address() for it in devices])
    ran = survey(program, site)
    wanted = found(1, devices[0]) + found(2, devices[1])
    wanted += "input w1 inv1 103 W 4000 W raw 4000 factor 0\ninput w2 inv2 103 W 2500 W raw 2500 factor 0\n"
    wanted += "output lim1 inv1 123 WMaxLimPct 0..100 % WMax now 100 raw 100 factor 0\nreversion inv1 123 WMaxLimPct_RvrtTms 60 s\nserved 103 W 6500 W\n" + NOTHING
    counts.note("a well site", (ran.returncode, ran.stdout, ran.stderr) == (0, wanted, ""), ran)
    paces = [rf"pace inv{n} replies in \d+ to \d+ ms, {requests} a round: keeps up with --every \d+\n" for n, requests in ((1, "3 requests"), (2, "1 request"))]
    counts.note("how often they can be asked", all(re.fullmatch(*it) for it in zip(paces, ran.paces)) and len(ran.paces) == 2, ran.paces)
    counts.note("it is asked for reads alone", [it.functions for it in devices] == [{3}, {3}] and not devices[0].written, devices[0].functions)
    counts.note("one connection each", [it.came for it in devices] == [1, 1], [it.came for it in devices])
    began = time.monotonic()
    devices[1].gone()
    ran = survey(program, site)
    counts.note("a device that isn't there", ran.returncode == 1 and ran.stdout.startswith(found(1, devices[0]) + f"device inv2 {devices[1].address()} unit 1 lost Down: ") and
                "input w2 inv2 103 W missing NoBlock: see device inv2\n" in ran.stdout and ran.stdout.endswith("served 103 W missing Part w2: w2 has no value of its own\n3 things are wrong\n"), ran)
    devices[1].open()
    devices[1].silent = True
    ran = survey(program, site, "--timeout", "300")
    counts.note("one that is silent costs one wait", ran.returncode == 1 and " unit 1 lost Silent: " in ran.stdout and time.monotonic() - began < 3, ran)
    devices[1].silent = False
    for it in devices:
        it.gone()


def try_device(counts, what, program, folder, words, limit, tag, lines):
    """One device whose registers are these: then these lines come, of which the last one counts them."""
    device = Recorder({1: words})
    site = site_of(folder, [device.address()], limit, [WATTS | tag])
    ran = survey(program, site)
    status = 0 if lines[-1] == NOTHING else 1
    counts.note(what, ran.returncode == status and all(line in ran.stdout for line in lines) and ran.stdout.endswith(lines[-1]) and device.functions == {3}, ran)
    device.gone()


def try_wrong(counts, program, folder):
    one = "1 thing is wrong\n"
    try_device(counts, "a finer reading", program, folder, registers(15007, {FACTOR: 0xFFFF, LIMIT_FACTOR: 0}), {}, {},
               ['input w1 inv1 103 W missing Inexact raw 15007 factor -1: give the tag round = "down", or exponent = -1 with', one])
    try_device(counts, "a finer reading that is whole now", program, folder, registers(0, {FACTOR: 0xFFFF, LIMIT_FACTOR: 0}), {}, {},
               ['input w1 inv1 103 W 0 W raw 0 factor -1: values between will be missing (Inexact); give the tag round = "down", or exponent = -1 with', one])
    try_device(counts, "one that is rounded", program, folder, registers(15007, {FACTOR: 0xFFFF, LIMIT_FACTOR: 0}), {}, {"exponent": '0\nround = "down"'}, ["W 1500 W raw 15007 factor -1\n", NOTHING])
    try_device(counts, "a value by its exponent", program, folder, registers(15007, {FACTOR: 0xFFFF, LIMIT_FACTOR: 0}), {}, {"exponent": -1}, ["W 1500.7 W raw 15007 factor -1\n", NOTHING])
    try_device(counts, "a range beyond the factor", program, folder, registers(1, {LIMIT_FACTOR: 0xFFFD}), {}, {},
               ["output lim1 inv1 123 WMaxLimPct 0..100 % WMax now 0.100 raw 100 factor -3: 100 can't be said: uint16 by factor -3 reaches 65; ", one])
    try_device(counts, "a range below the factor", program, folder, registers(1, {LIMIT_FACTOR: 0}), {"low": -5}, {}, [": -5 can't be said: uint16 by factor 0 begins at 0; ", one])
    try_device(counts, "a factor that is too coarse", program, folder, registers(1, {LIMIT_FACTOR: 1}), {}, {}, ["now 1000 raw 100 factor 1: only multiples of 10 can be said: uint16 by factor 1; ", one])
    for fit, text in (("down", "says multiples of 10, 99 goes out as 90"), ("up", "says multiples of 10, 1 goes out as 10")):
        try_device(counts, f"the same, fitted {fit}", program, folder, registers(1, {LIMIT_FACTOR: 1}), {"exponent": f'0\nfit = "{fit}"'}, {}, [f"now 1000 raw 100 factor 1: {text}\n", NOTHING])
    try_device(counts, "a range beyond the factor, fitted", program, folder, registers(1, {LIMIT_FACTOR: 0xFFFD}), {"exponent": '0\nfit = "down"'}, {}, ["now 0.100 raw 100 factor -3: 100 goes out as 65\n", NOTHING])
    try_device(counts, "a number for which none goes out", program, folder, registers(1, {LIMIT_FACTOR: 1}), {"low": 5, "exponent": '0\nfit = "down"'}, {}, [": only multiples of 10 can be said: uint16 by factor 1; ", one])
    try_device(counts, "no factor", program, folder, registers(1, {LIMIT_FACTOR: 0x8000}), {}, {}, ["now BadScale raw 100: nothing can be said (BadScale): ", one])
    try_device(counts, "a set point that isn't one now", program, folder, registers(1, {LIMIT_FACTOR: 0, BASE + 127: 0xFFFF}), {}, {}, ["0..100 % WMax now NotImplemented\n", NOTHING])
    try_device(counts, "no map", program, folder, {BASE: 1, BASE + 1: 2}, {}, {}, [" unit 1 lost NoMap: ", "3 things are wrong\n"])
    other = registers(1, {LIMIT_FACTOR: 0, BASE + 70: 101})
    try_device(counts, "a model that is missing", program, folder, other, {}, {},
               ["found 1 101 123 Mn ", "device inv1 lacks 103: it has 1 101 123; ".replace("inv1 ", "inv1 "), "input w1 inv1 103 W missing NoBlock: see device inv1\n", "2 things are wrong\n"])


def try_shared(counts, program, folder):
    """Three units behind one address, of which one answers nothing: that costs one wait, and the others are read."""
    units = {1: registers(1, {LIMIT_FACTOR: 0}), 2: {}, 3: registers(3)}
    device = Recorder(units, silent_unit=2)
    text = GATEWAY + "".join(DEVICE.format(n=n) for n in units) + "".join(TAG.format(name=f"w{n}", n=n, **WATTS) for n in units)
    began = time.monotonic()
    ran = survey(program, put(folder, "shared.toml", text), "--devices", device.address(), "--timeout", "400")
    took = time.monotonic() - began
    counts.note("a silent unit among others", ran.returncode == 1 and f"device inv2 {device.address()} unit 2 lost Silent: " in ran.stdout and
                "input w1 inv1 103 W 1 W raw 1 factor 0\ninput w2 inv2 103 W missing NoBlock: see device inv2\ninput w3 inv3 103 W 3 W raw 3 factor 0\n2 things are wrong\n" in ran.stdout, ran)
    counts.note("it costs one wait, over one connection", 0.4 <= took < 0.8 and device.came == 1 and device.functions == {3}, (took, device.came))
    device.gone()


def try_words(counts, program, folder):
    site, limiter = f"{TOP}/examples/site.toml", f"{TOP}/examples/limiter.il"
    bad = put(folder, "bad.il", "PROGRAM p\nLD 1\n")
    check = subprocess.run([program, "check", site, bad], capture_output=True, text=True, check=False, timeout=20)
    ran = survey(program, site, bad, "--devices", "127.0.0.1:1")
    counts.note("a program is judged before", (ran.returncode, ran.stdout, ran.stderr) == (1, check.stdout, check.stderr), ran)
    ran = survey(program, site, limiter, "--devices", "127.0.0.1:1")
    counts.note("one that is accepted", ran.returncode == 1 and ran.stdout.startswith("device inv1 127.0.0.1:1 unit 1 lost Down: "), ran)
    for words, out, err in (([site], "", "device 'inv1' has no 'address'"), ([site, "--devices", "here"], "", "'--devices' is no HOST:PORT"), ([site, "--timeout", "0"], "", "0")):
        ran = survey(program, *words)
        counts.note(words, (ran.returncode, ran.stdout) == (2, out) and err in ran.stderr, ran)


def try_units(counts, program, folder):
    """Units of a model that is handed in, of which the last definition counts; a published one has its own beside it."""
    words = [*SUNS, 1, 66, *[0x8000] * 66, 64001, 2, 71, 72, 103, 50, *[0x8000] * 12, 4000, 0, *[0x8000] * 36, 0xFFFF, 0]
    device = Recorder({1: {BASE + n: word for n, word in enumerate(words)}})
    text = GATEWAY + DEVICE.format(n=1) + f'remote_unit = 1\naddress = "{device.address()}"\n' + TAG.format(name="w1", n=1, **WATTS)
    text += "".join(TAG.format(name=point.lower(), n=1, **WATTS | {"model": 64001, "point": point}) for point in ("X", "Y"))
    site = put(folder, "units.toml", text)
    defs = [put(folder, f"{n}.json", OWN_MODEL.format(unit=unit)) for n, unit in enumerate(("l/min", r"m\u00b3\th"))]
    rows = "input w1 inv1 103 W  4000 W raw 4000 factor 0\ninput x inv1 64001 X 71{} raw 71 factor 0\ninput y inv1 64001 Y 72 raw 72 factor 0\n" + NOTHING
    for first, second, unit in ((0, 1, " m\u00b3\\u{9}h"), (1, 0, " l/min")):
        ran = survey(program, site, "--def", defs[first], "--def", defs[second])
        counts.note(f"the unit {unit}", ran.returncode == 0 and ran.stdout.endswith(rows.format(unit)), ran)
    device.gone()


def times_of(program, folder, words, tags, *more, rewrite=0, tail=""):
    """The rows of times that a survey has of one device with these registers and tags, and its last line."""
    device = Recorder({1: words})
    text = GATEWAY + DEVICE.format(n=1) + f'remote_unit = 1\naddress = "{device.address()}"\nrewrite = {rewrite}\n'
    text += "".join(TAG.format(name=f"t{k}", **LIMIT | it) for k, it in enumerate(tags)) + tail
    ran = survey(program, put(folder, "times.toml", text), *more)
    device.gone()
    rows = [re.sub(" +", " ", it) for it in ran.stdout.splitlines()]
    return [it for it in rows if it.startswith(("reversion ", "lapse "))] + rows[-1:]


def try_times(counts, program, folder):
    """After how long a device ends what is written to it, and whether that is long enough."""
    limit, one = "reversion inv1 123 WMaxLimPct_RvrtTms", "1 thing is wrong"
    never = "nothing ends what is written once the gateway is gone; give it"
    lost = "so one lost write ends it; give it"
    short = "so one scan without a write ends it; give it"
    well = NOTHING.strip()
    for seconds, rewrite, more, said, last in (
        (60, 0, (), "60 s", well),
        (2, 0, (), "2 s", well),
        (0, 0, (), f"0 s: {never} 2 s or more in the device", one),
        (0xFFFF, 30, (), f"NotImplemented: {never} 60 s or more in the device", one),
        (1, 0, (), f"1 s: less than two periods of 1000 ms, {short} 2 s or more in the device", one),
        (1, 0, ("--every", "500"), "1 s", well),
        (60, 0, ("--every", "30001"), f"60 s: less than two periods of 30001 ms, {short} 61 s or more in the device", one),
        (60, 0, ("--every", "30000"), "60 s", well),
        (60, 30, (), "60 s", well),
        (60, 31, (), f"60 s: less than twice rewrite = 31, {lost} 62 s or more in the device", one),
    ):
        told = times_of(program, folder, registers(1, {LIMIT_FACTOR: 0, LIMIT_TIME: seconds}), [{}], *more, rewrite=rewrite)
        counts.note(f"a time of {seconds} s, {more}, rewritten after {rewrite} s", told == [f"{limit} {said}", last], told)
    enable, cosine, time = {"point": "WMaxLim_Ena", "high": 1}, {"point": "OutPFSet", "low": -1000, "high": 1000}, {"point": "WMaxLimPct_RvrtTms"}
    own = registers(1, {LIMIT_FACTOR: 0, LIMIT_FACTOR + 1: 0, COSINE_TIME: 7})
    told = times_of(program, folder, own, [{}, enable, cosine])
    counts.note("each time once", told == [f"{limit} 60 s", "reversion inv1 123 OutPFSet_RvrtTms 7 s", well], told)
    told = times_of(program, folder, own | {LIMIT_TIME: 0}, [{}, time])
    counts.note("one that the site writes", told == [f"{limit} 0 s, which t1 writes", well], told)
    told = times_of(program, folder, {at: 121 if word == 123 else word for at, word in own.items()}, [{}])
    counts.note("one that wasn't read", told == ["2 things are wrong"], told)
    clients = "".join(TAG.replace('device = "inv{n}"\n', "").format(name=name, **LIMIT | {"access": "set", "point": point}) + more
                      for name, point, more in (("a", "WMaxLimPct", "default = 100\nlapse = 60\n"), ("b", "OutPFSet", ""), ("c", "WMaxLimPct_RvrtTms", "")))
    told = times_of(program, folder, own, [{}], tail=clients)
    counts.note("what ends what clients set", told == [
        f"{limit} 60 s", "lapse a 123 WMaxLimPct 60 s: by the tag's lapse; WMaxLimPct_RvrtTms of clients ends nothing",
        "lapse b 123 OutPFSet never: what clients set stays, and their OutPFSet_RvrtTms ends nothing; lapse of the tag would", well], told)


def try_der_times(counts, program, folder):
    """The time of a model whose definition is handed in."""
    words = [*SUNS, 1, 66, *[0x8000] * 66, 704, 4, 0, 100, 1, 0, 0xFFFF, 0]
    held = {BASE + n: word for n, word in enumerate(words)}
    tag = {"model": 704, "point": "WSet", "kind": "DINT"}
    for name, said, last in (("WSetRvrtTms", "65536 s", NOTHING.strip()),
                             ("WSetRvrt", "isn't known: the definition of model 704 hasn't this point; hand in one that has it", "1 thing is wrong")):
        told = times_of(program, folder, held, [tag], "--def", put(folder, "der.json", DER_MODEL.format(time=name)))
        counts.note(f"model 704 with {name}", told == [f"reversion inv1 704 WSetRvrtTms {said}", last], told)


def try_many(counts, program, folder):
    """A site that has room for no tag more, and one that has the names of those that are added."""
    device = Recorder({1: registers(1, {LIMIT_FACTOR: 0})})
    text = GATEWAY + DEVICE.format(n=1) + f'address = "{device.address()}"\n'
    tags = "".join(TAG.format(name=f"t{k}", n=1, **WATTS) for k in range(1024))
    ran = survey(program, put(folder, "many.toml", text + tags))
    counts.note("1,024 tags", ran.returncode == 0 and "found 1 103 123 Mn - Md - SN -\n" in ran.stdout and ran.stdout.endswith("input t1023 inv1 103 W 1 W raw 1 factor 0\n" + NOTHING), ran.stdout[-200:])
    named = "".join(TAG.format(name=f"asked_{k}", n=1, **WATTS) for k in (0, 1))
    ran = survey(program, put(folder, "named.toml", text + named))
    counts.note("names that are taken", ran.returncode == 0 and 'Mn "Acme"' in ran.stdout and ran.stdout.count("\n") == 4, ran)
    device.gone()


PLAYS = (try_well, try_wrong, try_times, try_der_times, try_shared, try_words, try_units, try_many)

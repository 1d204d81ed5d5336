"""Plays of tools/try-serve on what is wrong: the lines of what is missing, and the alarms of the status file."""

import json
import os
import signal
import time

from serve_parts import Client, Service, text_of, until
from serve_plays import BASE, DEVICE, GATEWAY, PERCENT, PHASES, READ, SERVED, SET, SUNS, WRITTEN, OwnDevice, inverter, put

# registers of a device that `inverter` gives: its power, and the factor of that
WATTS, FACTOR = BASE + 84, BASE + 85
# the power of each device is shown, and the first one is limited
SHOWS = """PROGRAM shows
VAR_EXTERNAL
{tags}  lim1 : INT;
END_VAR
  LD 50
  ST lim1
{shown}END_PROGRAM
"""
SHOWN = """  LD w{n}_OK
  JMPCN over{n}
  LD w{n}
  MAX 0
  MIN 65534
  ST s{n}
over{n}:
"""


# the sum of two devices, and a factor by which it is shown
SUM = """
[[served]]
model = 103
point = "W"
sum = ["w1", "w2"]
"""
SCALE = """
[[served]]
model = 103
point = "W_SF"
value = {}
"""
TARGET = SET.format(name="share", point="VArWMaxPct", low=-100, high=100)


def files_of(folder, name, devices, keys):
    """A site of these devices, each at its own address, and its program."""
    text = GATEWAY + "".join(DEVICE.format(n=n) + f'remote_unit = 1\naddress = "{it.address()}"\n' for n, it in enumerate(devices, 1))
    text += "".join(READ.format(n=n, phase=PHASES[n - 1]) for n in range(1, len(devices) + 1)) + WRITTEN + SERVED + keys
    numbers = range(1, len(devices) + 1)
    code = SHOWS.format(tags="".join(f"  w{n}, s{n} : DINT;\n" for n in numbers), shown="".join(SHOWN.format(n=n) for n in numbers))
    return put(folder, f"{name}.toml", text), put(folder, f"{name}.il", code), f"{folder}/{name}.status"


def serve(program, folder, name, devices, keys="", more=()):
    """A service of these devices, and where its status file is."""
    site, code, status = files_of(folder, name, devices, keys)
    return Service(program, [site, code, "--listen", "127.0.0.1:0", "--every", "100", "--status-file", status, *more]), status


def other_inverter():
    """An inverter of one phase: it has model 101 in place of 103."""
    words = list(SUNS)
    for model, length in ((1, 66), (101, 50), (123, 24)):
        words += [model, length] + [0x8000] * length
    return {BASE + n: word for n, word in enumerate([*words, 0xFFFF, 0])}


def alarms_of(status, *keys):
    """Of each alarm what these keys have."""
    return [tuple(it[key] for key in keys) for it in json.loads(text_of(status) or '{"alarms": []}')["alarms"]]


def by_of(status):
    """By the name of what each alarm is of the name of what the alarm is of that it follows from, or None."""
    alarms = json.loads(text_of(status) or '{"alarms": []}')["alarms"]
    return {it["name"]: alarms[it["by"]]["name"] if "by" in it else None for it in alarms}


def told(counts, what, service, device, words, line):
    """The device's registers become these words: then this line comes."""
    behind = len(service.lines)
    device.units[1].update(words)
    counts.note(what, service.has(rf"\d+\.\d{{3}} {line}", behind=behind), service.lines[behind:])


def play_inputs(counts, program, folder):
    """A device whose numbers aren't those of the tag, and one that lacks a model."""
    devices = [OwnDevice({1: inverter(1500)}), OwnDevice({1: other_inverter()})]
    service, status = serve(program, folder, "inputs", devices)
    counts.note("a model that is missing", service.has(r"\S+ device inv2 lacks 103") and service.has(r"\S+ input w2 missing NoBlock"), service.lines)
    found = [line.split(" ", 1)[1] for line in service.lines if " device inv2 " in line]
    counts.note("after what was found, and once", found == ["device inv2 found 1 101 123", "device inv2 lacks 103"], found)
    counts.note("is an alarm", until(lambda: alarms_of(status, "kind", "name", "cause"), None, 0.5) == [
        ("model_missing", "inv2", "103"), ("input_missing", "w2", "NoBlock"), ("served_missing", "103 PPVphBC", "NotStored")], text_of(status))
    counts.note("what the program stores nothing in isn't shown", service.has(r"\S+ served 103 PPVphBC missing NotStored"), service.lines)
    counts.note("in words", "inv2 has no model 103, it has 1 101 123" in (it[0] for it in alarms_of(status, "text")), text_of(status))
    counts.note("an input follows from it", by_of(status) == {"inv2": None, "w2": "inv2", "103 PPVphBC": None}, text_of(status))
    counts.note("what to do stands with each", all(it[0].endswith(".") for it in alarms_of(status, "todo")), text_of(status))
    counts.note("whose device it is", [it["number"] for it in json.loads(text_of(status))["alarms"] if "number" in it] == [1], text_of(status))
    told(counts, "a finer reading", service, devices[0], {WATTS: 15003, FACTOR: 0xFFFF}, "input w1 missing Inexact raw 15003 factor -1")
    behind = len(service.lines)
    devices[0].units[1].update({WATTS: 15004})
    time.sleep(0.35)
    counts.note("another number of the same cause isn't told", not any(" input " in line for line in service.lines[behind:]), service.lines[behind:])
    alarm = [it for it in json.loads(text_of(status))["alarms"] if it["name"] == "w1"]
    counts.note("its alarm has the number of now", [it["text"] for it in alarm] == ["w1 has no value: raw 15004 by factor -1 is no whole number of 10^0"], alarm)
    counts.note("its tag says so", json.loads(text_of(status))["tags"]["w1"] == {"access": "in", "exponent": 0, "cause": "Inexact"}, text_of(status))
    told(counts, "another cause is told", service, devices[0], {FACTOR: 4}, "input w1 missing OutOfRange raw 15004 factor 4")
    told(counts, "no factor", service, devices[0], {FACTOR: 0x8000}, "input w1 missing BadScale raw 15004")
    told(counts, "nothing", service, devices[0], {WATTS: 0x8000}, "input w1 missing NotImplemented")
    told(counts, "a factor that is none", service, devices[0], {WATTS: 15004, FACTOR: 15}, "input w1 missing BadScale raw 15004 factor 15")
    behind = len(service.lines)
    told(counts, "it is there again", service, devices[0], {FACTOR: 0}, "input w1 present")
    counts.note("and is shown again", service.has(r"\S+ served 103 PPVphAB shown", behind=behind), service.lines[behind:])
    ours = lambda: [it for it in alarms_of(status, "kind", "name") if it[1] == "w1"]
    counts.note("its alarm ends", until(ours, []) == [], text_of(status))
    service.end()
    for it in devices:
        it.gone()


def play_alarms(counts, program, folder):
    """A device that is lost and comes back, and one without a map: each alarm begins and ends."""
    devices = [OwnDevice({1: inverter(1500)}), OwnDevice({1: inverter(1600)}), OwnDevice({1: {BASE: 1, BASE + 1: 2}})]
    service, status = serve(program, folder, "alarms", devices)
    play_unmapped(counts, service, status)
    devices[0].silent = True
    lost = [("device_lost", "inv1", "Silent"), ("device_unmapped", "inv3", "NoMap"), ("input_missing", "w1", "NoBlock"), ("input_missing", "w3", "NoBlock"),
        ("output_unwritten", "lim1"), ("served_missing", "103 PPVphAB", "NotStored"), ("served_missing", "103 PPVphCA", "NotStored")]
    named = lambda: [(kind, name, cause) if kind != "output_unwritten" else (kind, name) for kind, name, cause in alarms_of(status, "kind", "name", "cause")]
    counts.note("what is lost", until(named, lost, 8) == lost, (named(), service.lines[-8:]))
    follows = {"inv1": None, "inv3": None, "w1": "inv1", "w3": "inv3", "lim1": "inv1", "103 PPVphAB": None, "103 PPVphCA": None}
    counts.note("what follows from what", until(lambda: by_of(status), follows) == follows, text_of(status))
    began = [it for name, it in alarms_of(status, "name", "began") if name == "inv1"]
    time.sleep(1.2)
    counts.note("when it began stays", began == [it for name, it in alarms_of(status, "name", "began") if name == "inv1"], (began, text_of(status)))
    since = [it for name, it in alarms_of(status, "name", "since") if name in ("inv1", "w1", "lim1", "103 PPVphAB")]
    counts.note("since when", len(since) == 4 and max(since) - min(since) <= 1, since)
    devices[0].silent = False
    devices[2].units[1] = inverter(1700)
    counts.note("all is well again", until(named, [], 15) == [], (named(), service.lines[-8:]))
    counts.note("so say the lines", service.has(r"\S+ input w1 present") and service.has(r"\S+ output lim1 written"), service.lines[-8:])
    found = [line.split(" ", 1)[1] for line in service.lines if " device inv3 " in line]
    counts.note("a map that is found late", found == ["device inv3 " + it for it in ("refuses 3 50000 2", "refuses 3 0 2", "lost NoMap", "found 1 103 123")], found)
    counts.note("its device isn't lost any more", stands(status, 2) == ("up", True, False, None), text_of(status))
    service.end()
    for it in devices:
        it.gone()


def stands(status, number):
    """How a device stands."""
    device = json.loads(text_of(status))["devices"][number]
    return tuple(device[key] for key in ("connection", "mapped", "lost", "last_loss"))


def play_unmapped(counts, service, status):
    """The third device answers, and what it has is no map; the others are well."""
    wrong = [("device_unmapped", "inv3", "NoMap"), ("input_missing", "w3", "NoBlock"), ("served_missing", "103 PPVphCA", "NotStored")]
    named = lambda: alarms_of(status, "kind", "name", "cause")
    counts.note("a device without a map is an alarm", until(named, wrong) == wrong, (service.lines, text_of(status)))
    counts.note("in words", ("no SunSpec map was found in inv3 so far",) in alarms_of(status, "text"), text_of(status))
    counts.note("its line", service.has(r"\d+\.\d{3} device inv3 lost NoMap"), service.lines)
    counts.note("it is lost, and has no loss", stands(status, 2) == ("up", False, True, None), text_of(status))


def play_sum(counts, program, folder):
    """A sum that its point can't say, and one of which a part is missing."""
    for factor, watts, cause, text in ((0, 31000, "OutOfType", "its words don't hold the value by factor 0"), (1, 1501, "Inexact", "no raw number is the value by factor 1")):
        devices = [OwnDevice({1: inverter(1500)}), OwnDevice({1: inverter(2500)})]
        service, status = serve(program, folder, f"sum{factor}", devices, SUM + SCALE.format(factor))
        named = lambda: [it for it in alarms_of(status, "kind", "name", "cause") if it[1] == "103 W"]
        counts.note("a sum is shown", until(lambda: alarms_of(status, "kind") if text_of(status) else None, []) == [], text_of(status))
        told(counts, "a sum that isn't", service, devices[0], {WATTS: watts}, f"served 103 W missing {cause}")
        counts.note("is an alarm", until(named, [("served_missing", "103 W", cause)]) == [("served_missing", "103 W", cause)], text_of(status))
        counts.note("in words", (f"W of model 103 isn't shown: {text}",) in alarms_of(status, "text"), text_of(status))
        told(counts, "one with a part that is missing", service, devices[0], {WATTS: 0x8000}, "served 103 W missing Part w1")
        told(counts, "one that is shown again", service, devices[0], {WATTS: 1500}, "served 103 W shown")
        counts.note("its alarm ends", until(named, []) == [], text_of(status))
        service.end()
        for it in devices:
            it.gone()


def play_unscaled(counts, program, folder):
    """A sum whose point has a scale factor that isn't served."""
    devices = [OwnDevice({1: inverter(1500)}), OwnDevice({1: inverter(2500)})]
    service, status = serve(program, folder, "unscaled", devices, SUM)
    counts.note("a sum without its factor", service.has(r"\d+\.\d{3} served 103 W missing BadScale"), service.lines)
    wrong = [("served_missing", "103 W", "BadScale", "W of model 103 isn't shown: no scale factor in -10..10 is served for it")]
    named = lambda: alarms_of(status, "kind", "name", "cause", "text")
    counts.note("is an alarm", until(named, wrong) == wrong, text_of(status))
    service.end()
    for it in devices:
        it.gone()


def play_own(counts, program, folder):
    """What is wrong with the service itself: a scan that came late, and a file that can't be written."""
    devices = [OwnDevice({1: inverter(1500)})]
    service, status = serve(program, folder, "own", devices, more=["--state", f"{folder}/own.state"], keys=TARGET)
    counts.note("nothing is wrong with it", until(lambda: alarms_of(status, "kind") if text_of(status) else None, []) == [], text_of(status))
    os.mkdir(f"{folder}/own.state.new")
    client = Client(service.port())
    client.write(PERCENT, 30)
    unkept = [("file_unwritten", "state", "Unwritten")]
    counts.note("a file that can't be written", until(lambda: alarms_of(status, "kind", "name", "cause"), unkept) == unkept, text_of(status))
    os.rmdir(f"{folder}/own.state.new")
    counts.note("can be again", until(lambda: alarms_of(status, "kind"), []) == [], text_of(status))
    service.process.send_signal(signal.SIGSTOP)
    time.sleep(0.5)
    service.process.send_signal(signal.SIGCONT)
    counts.note("a scan that came late", service.has(r"\S+ late 1") and until(lambda: alarms_of(status, "kind", "name", "cause"), [("round_late", "rounds", "Late")]) == [("round_late", "rounds", "Late")], text_of(status))
    client.close()
    service.end()
    devices[0].gone()


PLAYS = (play_inputs, play_alarms, play_sum, play_unscaled, play_own)

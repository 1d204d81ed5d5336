"""Plays of tools/try-serve on numbers that a device's point can't say: the next one goes out where the tag has `fit`; and on a tag
that goes with another one, by `with`: it waits for that one.

  tools/serve_fit_plays.py [PROGRAM]     these plays alone
"""

import json
import struct
import sys
import time

sys.dont_write_bytecode = True
from serve_parts import Service, state_of, text_of, try_alone, until
from serve_plays import DEVICE, GATEWAY, OwnDevice, inverter, put

# registers of model 123 of the device: the limit, whether it counts, and its factor
LIMIT, ENABLE, FACTOR = 40127, 40131, 40145
UNSAID = 0x8000
TAGS = """
[[tag]]
name = "lim1"
access = "out"
device = "inv1"
model = 123
point = "WMaxLimPct"
type = "INT"
exponent = -1
low = 0
high = 1000
{fit}
[[tag]]
name = "ena1"
access = "out"
device = "inv1"
model = 123
point = "WMaxLim_Ena"
type = "BOOL"
exponent = 0
low = 0
high = 1
{companion}"""
# 34.6 percent
PROGRAM = """PROGRAM limits
VAR_EXTERNAL
  lim1 : INT;
  ena1 : BOOL;
END_VAR
  LD 346
  ST lim1
  LD TRUE
  ST ena1
END_PROGRAM
"""


def begin(program, folder, name, fit, companion=""):
    """A service of a device that counts whole percents and has no limit, and the path of its status file."""
    device, status = OwnDevice({1: inverter(5000)}), f"{folder}/{name}.status"
    device.units[1][ENABLE] = 0
    site = put(folder, f"{name}.toml", GATEWAY + DEVICE.format(n=1) + f'address = "{device.address()}"\n' + TAGS.format(fit=fit, companion=companion))
    words = [site, put(folder, "limits.il", PROGRAM), "--listen", "127.0.0.1:0", "--every", "100", "--status-file", status]
    return Service(program, words), device, status


def output_in(status, name="lim1"):
    """What a status file says of an output, by default of the limit."""
    text = text_of(status)
    return state_of(json.loads(text), name) if text else None


def play_fitted(counts, program, folder):
    """The next number below goes out, by the factor that the device has in the round; the status file has both."""
    for fit, raw in (("down", 34), ("up", 35)):
        service, device, status = begin(program, folder, fit, f'fit = "{fit}"\n')
        registers = device.units[1]
        counts.note(f"{fit}: the next number is written", until(lambda: registers[LIMIT], raw) == raw, (registers[LIMIT], service.lines))
        wanted = {"value": 346, "fitted": 10 * raw, "state": "written"}
        counts.note(f"{fit}: so says the status", until(lambda: output_in(status), wanted) == wanted, text_of(status))
        counts.note(f"{fit}: nothing is wrong", json.loads(text_of(status))["alarms"] == [] and not any("unwritten" in it for it in service.lines), service.lines)
        registers[FACTOR] = 0xFFFF
        counts.note(f"{fit}: by a finer factor the stored number goes out", until(lambda: registers[LIMIT], 346) == 346, registers[LIMIT])
        counts.note(f"{fit}: and the status says no other", until(lambda: output_in(status), {"value": 346, "state": "written"}) == {"value": 346, "state": "written"}, text_of(status))
        registers[FACTOR] = UNSAID
        counts.note(f"{fit}: without a factor none goes out", service.has(r"\S+ output lim1 unwritten BadScale"), service.lines)
        service.end()
        device.gone()


def play_exact(counts, program, folder):
    """Without the key nothing goes out in place of a number that the point can't say."""
    service, device, status = begin(program, folder, "exact", "")
    registers = device.units[1]
    counts.note("it isn't written", service.has(r"\S+ output lim1 unwritten Inexact"), service.lines)
    wanted = {"value": 346, "state": "unwritten", "cause": "Inexact"}
    counts.note("so says the status", until(lambda: output_in(status), wanted) == wanted, text_of(status))
    time.sleep(0.5)
    counts.note("the device has the limit of before", registers[LIMIT] == 100 and registers[ENABLE] == 1, (registers[LIMIT], registers[ENABLE]))
    service.end()
    device.gone()


def play_together(counts, program, folder):
    """What enables a limit isn't written while the limit isn't."""
    service, device, status = begin(program, folder, "together", "", 'with = "lim1"\n')
    registers = device.units[1]
    counts.note("it isn't enabled", service.has(r"\S+ output ena1 unwritten With"), service.lines)
    wanted = {"value": 1, "state": "unwritten", "cause": "With"}
    counts.note("so says the status", until(lambda: output_in(status, "ena1"), wanted) == wanted, text_of(status))
    alarms = {(it["kind"], it["name"], it["cause"]) for it in json.loads(text_of(status))["alarms"]}
    counts.note("both are alarms", alarms == {("output_unwritten", "lim1", "Inexact"), ("output_unwritten", "ena1", "With")}, alarms)
    time.sleep(0.5)
    counts.note("the device has no limit", registers[ENABLE] == 0, (registers[LIMIT], registers[ENABLE]))
    registers[FACTOR] = 0xFFFF
    counts.note("by a finer factor both are written", until(lambda: (registers[LIMIT], registers[ENABLE]), (346, 1)) == (346, 1), (registers[LIMIT], registers[ENABLE]))
    counts.note("and so they are told", service.has(r"\S+ output ena1 written"), service.lines)
    service.end()
    device.gone()


class LimitRefuser(OwnDevice):
    """One that refuses writes of its limit, as long as it is told to."""

    refuses_limit = True

    def reply(self, unit, pdu):
        if self.refuses_limit and pdu[0] != 3 and struct.unpack(">H", pdu[1:3])[0] == LIMIT:
            return bytes([pdu[0] | 0x80, 2])
        return super().reply(unit, pdu)


def play_acknowledged(counts, program, folder):
    """What enables a limit is written only after the device took the limit, though it stands before it in the site file."""
    device, status = LimitRefuser({1: inverter(5000)}), f"{folder}/acknowledged.status"
    device.units[1][ENABLE] = 0
    limit, enable = TAGS.format(fit="", companion='with = "lim1"\n').replace("[[tag]]", "\0[[tag]]").split("\0")[1:]
    site = put(folder, "acknowledged.toml", GATEWAY + DEVICE.format(n=1) + f'address = "{device.address()}"\n' + enable + limit)
    code = put(folder, "whole.il", PROGRAM.replace("346", "340"))
    service = Service(program, [site, code, "--listen", "127.0.0.1:0", "--every", "100", "--status-file", status])
    counts.note("the limit is refused", service.has(r"\S+ output lim1 unwritten Refused 2"), service.lines)
    counts.note("it isn't enabled", service.has(r"\S+ output ena1 unwritten With"), service.lines)
    wanted = {"value": 1, "state": "unwritten", "cause": "With"}
    counts.note("so says the status", until(lambda: output_in(status, "ena1"), wanted) == wanted, text_of(status))
    time.sleep(0.5)
    counts.note("nothing was written", device.written == [] and device.units[1][ENABLE] == 0, device.written)
    device.refuses_limit = False
    counts.note("both are written", until(lambda: device.units[1][ENABLE], 1) == 1 and service.has(r"\S+ output ena1 written"), service.lines)
    counts.note("the limit first", [at for _, at, _ in device.written[:2]] == [LIMIT, ENABLE], device.written)
    device.refuses_limit = True
    counts.note("without the limit it isn't enabled again", service.has(r"\S+ output ena1 unwritten With", behind=len(service.lines)), service.lines)
    time.sleep(0.2)
    count = len(device.written)
    time.sleep(0.5)
    counts.note("and so it stays", len(device.written) == count, device.written[count:])
    service.end()
    device.gone()


PLAYS = (play_fitted, play_exact, play_together, play_acknowledged)

if __name__ == "__main__":
    sys.exit(try_alone(sys.argv[1:], PLAYS))

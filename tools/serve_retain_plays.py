"""Plays of tools/try-serve on the variables that are kept over a restart."""

import json
import os
import subprocess
import time

from serve_parts import TOP, Client, Service, text_of, until
from serve_plays import LIMIT, put

# a ramp, a number that counts the scans, and one that nothing keeps
PROGRAM = """PROGRAM ramps
VAR_EXTERNAL target, lim1 : INT; END_VAR
VAR ramp : INT (0..100) := 1; scans : DINT (0..1000000); other : INT (0..9) := 3; END_VAR
  LD scans
  ADD 1
  MIN 1000000
  ST scans
  LD ramp
  ADD 1
  MIN target
  ST ramp
  ST lim1
  LD 5
  ST other
END_PROGRAM
"""
PLANT = ["--plant", f"{TOP}/examples/plant.toml"]


def files(folder, retain):
    """The site of the examples with this key of its gateway, and the program."""
    with open(f"{TOP}/examples/site.toml", encoding="utf-8") as it:
        text = it.read().replace("base = 40000\n", f"base = 40000\n{retain}\n")
    return put(folder, "site.toml", text), put(folder, "ramps.il", PROGRAM)


def variables(path):
    """What the status file says of the variables; empty before it is there."""
    text = text_of(path)
    return json.loads(text)["variables"] if text else {}


def begin(program, names, folder, *more):
    """A service over the plant that keeps what it is to keep in the folder."""
    words = [*names, *PLANT, "--listen", "127.0.0.1:0", "--every", "100", "--status-file", f"{folder}/status", *more]
    return Service(program, words)


def play_ramp(counts, program, folder):
    """A ramp goes on over a kill, and changed variables are written at most once in ten seconds."""
    names, state, status = files(folder, 'retain = ["RAMP", "scans"]'), f"{folder}/state", f"{folder}/status"
    service = begin(program, names, folder, "--state", state)
    client = Client(service.port())
    time.sleep(1.5)
    first = text_of(state)
    counts.note("both variables are kept, and no other", first is not None and [it.split("=")[0] for it in first.split("\n")] == ["VAR ramp", "VAR scans", ""], first)
    counts.note("not again for ten seconds", variables(status)["scans"] > int(first.rsplit("=", 1)[1]) + 5, (first, variables(status)))
    counts.note("what a client sets is written at once, with them", client.write(LIMIT, 60)[0] == 6 and text_of(state).startswith("target=60\nVAR ramp="), text_of(state))
    kept = dict(it.removeprefix("VAR ").split("=") for it in text_of(state).splitlines())
    service.end()
    os.remove(status)
    service = begin(program, names, folder, "--state", state, "--verbose")
    counts.note("a scan comes after the kill", service.has(r"scan 1 .*"), service.lines)
    now = until(lambda: variables(status).get("other"), 5) and variables(status)
    counts.note("the ramp goes on where it was", int(kept["ramp"]) < now["ramp"] <= int(kept["ramp"]) + now["scans"] - int(kept["scans"]), (kept, now))
    counts.note("nothing was left out", not any("left out" in it for it in service.lines), service.lines)
    service.end()


def play_left_out(counts, program, folder):
    """What the program can't begin with is left out, and told."""
    names, state, status = files(folder, 'retain = ["ramp", "scans"]'), f"{folder}/state", f"{folder}/status"
    put(folder, "state", "VAR ramp=101\nVAR other=7\nVAR gone=1\nVAR scans=x\nVAR scans=700\nVARscans=800\n")
    service = begin(program, names, folder, "--state", state)
    for line in ("VAR ramp=101", "VAR other=7", "VAR gone=1", "VAR scans=x", "VARscans=800"):
        counts.note(f"left out: {line}", service.has(rf"\S+ setting {line} left out"), service.lines)
    now = until(lambda: variables(status).get("other"), 5) and variables(status)
    counts.note("the others begin as at the first start", now["ramp"] < 60 and 700 < now["scans"] < 800, now)
    service.end()


def play_names(counts, program, folder):
    """Names that are none are refused, and a name of no variable is told; without a file nothing is kept, and that is told."""
    for retain, why in (('retain = "ramp"', "'retain' of the site file is no list of texts"), ('retain = ["ramp", "a b"]', "text 2 in 'retain' of the site file is no name")):
        names = files(folder, retain)
        ran = subprocess.run([program, "serve", *names, *PLANT, "--scans", "1"], capture_output=True, text=True, check=False, timeout=20)
        counts.note(f"refused: {retain}", ran.returncode == 2 and why in ran.stderr, ran)
        ran = subprocess.run([program, "check", *names], capture_output=True, text=True, check=False, timeout=20)
        counts.note(f"check warns: {retain}", ran.returncode == 0 and why in ran.stderr and "'serve' refuses it" in ran.stderr, ran)
    names = files(folder, 'retain = ["ramp", "gone"]')
    for words in (["check", *names], ["serve", *names, *PLANT, "--every", "50", "--scans", "1", "--listen", "127.0.0.1:0"]):
        ran = subprocess.run([program, *words], capture_output=True, text=True, check=False, timeout=20)
        counts.note(f"{words[0]} tells a name of no variable", ran.returncode == 0 and "'retain' names gone, and the program has no such variable" in ran.stderr, ran)
    counts.note("nothing is kept without a file", "'--state PATH' keeps those of 'retain'" in ran.stderr, ran)


PLAYS = (play_ramp, play_left_out, play_names)

"""Plays of tools/try-serve on the time that a program is told."""

import json
import os
import signal
import socket
import time

from serve_parts import TOP, Client, Device, Service, files_of, plant_of, text_of, until
from serve_plays import put

# the register of the gateway at which clients read the sum of all times, two registers long
TOTAL = 40094
TAGS = """
[[tag]]
name = "dt"
access = "time"
type = "DINT"
low = 1
high = 10000

[[tag]]
name = "total"
access = "site"
model = 103
point = "WH"
type = "DINT"
exponent = 0
low = 1
high = 1000000000

[[served]]
model = 103
point = "WH_SF"
value = 0
"""
PROGRAM = """PROGRAM sums
VAR_EXTERNAL dt, total : DINT; target, lim1 : INT; ena1 : BOOL; END_VAR
VAR ms : DINT (1..1000000000); END_VAR
  LD ms
  ADD dt
  MIN 1000000000
  ST ms
  ST total
  LD target
  ST lim1
  LD TRUE
  ST ena1
END_PROGRAM
"""
# how far the program's time and the watch may differ, in milliseconds: a client reads the sum soon after each scan
MOST = 150
PLANT = ["--plant", f"{TOP}/examples/plant.toml", "--listen", "127.0.0.1:0"]


def files(folder, path):
    """The site at the path with both tags, and the program."""
    with open(path, encoding="utf-8") as it:
        return put(folder, "timed.toml", it.read() + TAGS), put(folder, "sums.il", PROGRAM)


def total(client):
    high, low = client.read(TOTAL, 2)
    return 65536 * high + low


def next_sum(client, seconds=5.0):
    """The sum at the next scan, and the watch there, both in milliseconds."""
    first, end = total(client), time.monotonic() + seconds
    while (now := total(client)) == first and time.monotonic() < end:
        time.sleep(0.002)
    return now, 1000 * time.monotonic()


def compare(counts, what, client, meanwhile):
    """The program's time goes as the watch does, whatever happens meanwhile; how many milliseconds went by for it. Where the
    machine kept the client from a processor the two differ, so it is tried three times."""
    for _ in range(3):
        first, began = next_sum(client)
        meanwhile()
        last, ended = next_sum(client)
        if abs((last - first) - (ended - began)) < MOST:
            break
    counts.note(what, abs((last - first) - (ended - began)) < MOST, (last - first, ended - began))
    return last - first


def play_periods(counts, program, folder):
    """So many seconds are so many for the program, with a scan each 200 ms and each 400 ms."""
    names, sums = files(folder, f"{TOP}/examples/site.toml"), []
    for every in ("200", "400"):
        status = f"{folder}/status{every}"
        service = Service(program, [*names, *PLANT, "--every", every, "--status-file", status])
        client = Client(service.port())
        sums.append(compare(counts, f"three seconds by --every {every}", client, lambda: time.sleep(3)))
        tag = json.loads(text_of(status))["tags"]["dt"]
        counts.note("the status file has the time", (tag["access"], tag["exponent"]) == ("time", 0) and abs(tag["value"] - int(every)) < MOST, tag)
        client.close()
        service.end()
    counts.note("both are as long", abs(sums[0] - sums[1]) < 400 + MOST, sums)


def play_first(counts, program, folder):
    """The first scan reads the least number, however long the search for devices took."""
    names, status = files(folder, f"{TOP}/examples/site.toml"), f"{folder}/status"
    service = Service(program, [*names, *PLANT, "--every", "2000", "--status-file", status])
    text = until(lambda: text_of(status) is not None, True) and text_of(status)
    counts.note("its first scan", json.loads(text)["scans"] == 1 and json.loads(text)["tags"]["dt"]["value"] == 1, text)
    service.end()


def play_silent(counts, program, folder):
    """A device that answers nothing."""
    with socket.create_server(("127.0.0.1", 0)) as silent:
        device, nobody = Device(program, plant_of(folder, "one", 4000)), type("Nobody", (), {"port": silent.getsockname()[1]})
        names = files(folder, files_of(folder, [device, nobody]))
        service = Service(program, [*names, "--listen", "127.0.0.1:0", "--every", "200"])
        counts.note("a device is lost", service.has(r"\S+ device inv2 lost Silent"), service.lines)
        client = Client(service.port())
        compare(counts, "two seconds with a silent device", client, lambda: time.sleep(2))
        client.close()
        service.end()
        device.kill()


def play_stopped(counts, program, folder):
    """A service that is stopped for longer than a second: the next scan is told of all of it."""
    names = files(folder, f"{TOP}/examples/site.toml")
    service = Service(program, [*names, *PLANT, "--every", "200"])
    client = Client(service.port())

    def stop():
        os.kill(service.process.pid, signal.SIGSTOP)
        time.sleep(1.2)
        os.kill(service.process.pid, signal.SIGCONT)

    passed = compare(counts, "a service that was stopped", client, stop)
    counts.note("it was late", passed >= 1200 and service.has(r"\S+ late \d+"), (passed, service.lines))
    client.close()
    service.end()


PLAYS = (play_periods, play_first, play_silent, play_stopped)

"""Plays of tools/try-serve on the file of set values: it is one service's alone, and its folder is tried before anything is asked."""

import os
import signal
import socket
import stat
import subprocess

from serve_parts import TOP, Client, Service, text_of, until
from serve_plays import LIMIT, OwnDevice, inverter

PLANT = ["--plant", f"{TOP}/examples/plant.toml"]


def words_of(*more, listen="127.0.0.1:0"):
    return [f"{TOP}/examples/site.toml", f"{TOP}/examples/limiter.il", "--listen", listen, "--every", "100", *more]


def start(program, *more, listen="127.0.0.1:0"):
    """What a service prints that ends by itself, and how."""
    words = words_of("--scans", "1", *more, listen=listen)
    return subprocess.run([program, "serve", *words], capture_output=True, text=True, check=False, timeout=20)


def is_refused(ran, path, cause):
    return (ran.returncode == 1 and ran.stdout.endswith(f"\naccepted\nbudget 18\nrefused: state {path} {cause}\n")
            and ran.stderr.startswith(f"state {path}: {cause}: ") and "\n  help: " in ran.stderr)


def play_one_service(counts, program, folder):
    """A second service over one file is refused while the first one runs, and accepted after it ended in whatever way."""
    path = f"{folder}/state"
    device = OwnDevice({n: inverter(1000) for n in (1, 2)})
    more = ["--devices", device.address(), "--state", path]
    first = Service(program, words_of(*more))
    client = Client(first.port())
    counts.note("what is set is kept", client.write(LIMIT, 40)[0] == 6 and text_of(path) == "target=40\n", text_of(path))
    came = until(lambda: device.came, 1)
    ran = start(program, *more)
    counts.note("a second service is refused", is_refused(ran, path, "InUse") and "another service" in ran.stderr, ran)
    counts.note("before it asks a device", device.came == came, (came, device.came))
    counts.note("the first one goes on", client.write(LIMIT, 41)[0] == 6 and text_of(path) == "target=41\n", text_of(path))
    ran = start(program, "--quiet", *more)
    counts.note("--quiet leaves the note out", (ran.returncode, ran.stderr) == (1, ""), ran)
    for number in (signal.SIGTERM, signal.SIGKILL):
        first.process.send_signal(number)
        first.process.wait()
        first = Service(program, words_of(*more))
        client = Client(first.port())
        counts.note(f"accepted after {number.name}", client.read(LIMIT) == (41,), (client.read(LIMIT), first.lines))
    first.end()
    ran = start(program, *more)
    counts.note("and one after one that ends by itself", ran.returncode == 0 and start(program, *more).returncode == 0, ran)
    counts.note("beside it stand the file that is locked, that of the program, and no other", sorted(os.listdir(folder)) == ["state", "state.lock", "state.program"], os.listdir(folder))
    device.gone()


def play_folders(counts, program, folder):
    """A folder in which nothing can be written is told at once, and nobody comes to a device."""
    device = OwnDevice({n: inverter(1000) for n in (1, 2)})
    with open(f"{folder}/file", "w", encoding="utf-8"):
        pass
    os.mkdir(f"{folder}/full")
    os.mkdir(f"{folder}/full/state.new")
    os.mkdir(f"{folder}/locked")
    os.mkdir(f"{folder}/locked/state.lock")
    for path, cause in (
        (f"{folder}/none/state", "NoFolder"),
        (f"{folder}/full/state", "Failed"),
        (f"{folder}/locked/state", "NotAFile"),
        ("/sys/state", "Denied"),
    ):
        ran = start(program, "--devices", device.address(), "--state", path)
        counts.note(f"{cause}: {path}", is_refused(ran, path, cause), ran)
    path = f"{folder}/none\n/state"
    ran = start(program, "--devices", device.address(), "--state", path)
    counts.note("a path can't pass for another line", is_refused(ran, path.replace("\n", "\\u{a}"), "NoFolder"), ran)
    counts.note("nothing was asked", device.came == 0, device.came)
    ran = start(program, *PLANT, "--state", f"{folder}/none/state")
    counts.note("with a plant too", is_refused(ran, f"{folder}/none/state", "NoFolder"), ran)
    with socket.create_server(("127.0.0.1", 0)) as it:
        taken = f"127.0.0.1:{it.getsockname()[1]}"
        ran = start(program, *PLANT, "--state", f"{folder}/none/state", listen=taken)
        counts.note("and before the port", is_refused(ran, f"{folder}/none/state", "NoFolder"), ran)
    device.gone()


def play_changed(counts, program, folder):
    """A file that is written after it was read for a start: here by what is started as the plant."""
    path, exe = f"{folder}/state", f"{folder}/writes"
    with open(exe, "w", encoding="utf-8") as it:
        it.write(f'#!/bin/sh\necho target=60 >"{path}"\nexec "{program}" "$@"\n')
    os.chmod(exe, stat.S_IRWXU)
    ran = start(program, *PLANT, "--exe", exe, "--state", path)
    counts.note("a file that was written meanwhile", is_refused(ran, path, "Changed"), ran)
    ran = start(program, *PLANT, "--exe", exe, "--state", path)
    counts.note("it is taken as it is then", ran.returncode == 0 and text_of(path) == "target=60\n", ran)


PLAYS = (play_one_service, play_folders, play_changed)

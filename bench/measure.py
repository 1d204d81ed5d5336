"""How long runs of a program take, and how many requests a second a server answers."""

import os
import resource
import shutil
import socket
import statistics
import subprocess
import sys
import tempfile
import time

HERE = os.path.dirname(os.path.realpath(__file__))
REGISTERS = 52
REQUESTS = 20_000
FIRST_UNIT, FIRST_REGISTER = 1, 40000


class Run:
    """One run of a program, from its start to its end: its seconds, and what it printed."""

    def __init__(self, words, standard_input=None):
        given = open(standard_input, "rb") if standard_input else subprocess.DEVNULL
        begin = time.perf_counter()
        child = subprocess.Popen(words, stdin=given, stdout=subprocess.PIPE)
        self.printed = child.stdout.read().decode()
        child.wait()
        self.seconds = time.perf_counter() - begin
        if child.returncode != 0:
            sys.exit(f"bench: {' '.join(words)} ended with status {child.returncode}: {self.printed[-200:]}")


class Command:
    """A program with its words, to be run again and again on the same input."""

    def __init__(self, words, standard_input=None):
        self.words, self.standard_input = words, standard_input

    def seconds(self, times=5):
        """The median of several runs."""
        return statistics.median(Run(self.words, self.standard_input).seconds for _ in range(times))

    def megabytes(self):
        """The greatest memory of one more run; None where there is no `time`. A child of this process would begin with
        the memory of Python, so a small program stands between."""
        timer = shutil.which("time")
        if timer is None:
            return None
        with tempfile.NamedTemporaryFile("r") as told:
            Run([timer, "-f", "%M", "-o", told.name, *self.words], self.standard_input)
            return int(told.read()) / 1024


def processor_seconds(words):
    """The processor's seconds, user and system, of one run of a program."""
    before = resource.getrusage(resource.RUSAGE_CHILDREN)
    Run(words)
    after = resource.getrusage(resource.RUSAGE_CHILDREN)
    return after.ru_utime + after.ru_stime - before.ru_utime - before.ru_stime


def per_step(program, folder, text, scans, times=5):
    """Nanoseconds for each instruction of a program's scans, and the instructions of one scan: what many scans take
    longer than one."""
    site, plant, path = f"{folder}/site.toml", f"{folder}/plant.toml", f"{folder}/scanned.il"
    write(path, text)
    words = [program, "run", site, path, "--plant", plant, "--scans"]
    found = []
    for _ in range(times):
        one, many = Run([*words, "1"]), Run([*words, str(scans)])
        lines = [line.split() for line in many.printed.splitlines() if line.startswith("scan ")]
        steps = sum(int(line[3]) for line in lines[1:])
        found.append((many.seconds - one.seconds) / steps * 1e9)
    return found, steps // (scans - 1)


def requests_per_second(port, requests=REQUESTS):
    """Reads the same registers again and again over one connection."""
    with socket.create_connection(("127.0.0.1", port)) as link:
        link.setsockopt(socket.IPPROTO_TCP, socket.TCP_NODELAY, 1)
        tail = b"\0\0\0\6" + bytes([FIRST_UNIT, 3]) + FIRST_REGISTER.to_bytes(2, "big") + REGISTERS.to_bytes(2, "big")
        whole = 9 + 2 * REGISTERS
        begin = time.perf_counter()
        for number in range(requests):
            link.sendall((number & 0xFFFF).to_bytes(2, "big") + tail)
            left = whole
            while left > 0:
                got = len(link.recv(left))
                if got == 0:
                    sys.exit("bench: the server closed its connection")
                left -= got
        return requests / (time.perf_counter() - begin)


def served(words, ask):
    """Starts a server that prints its port, and asks it by a function of the port."""
    child = subprocess.Popen(words, stdout=subprocess.PIPE)
    port = int(child.stdout.readline().split()[1])
    answer = ask(port)
    child.stdout.close()
    child.wait()
    return answer


def asked_by(client):
    """A function of a port that asks a server there by this client's words, or by this file's own client."""
    def ask(port):
        if client is None:
            return requests_per_second(port)
        words = [client, str(port), str(FIRST_UNIT), str(FIRST_REGISTER), str(REGISTERS), str(REQUESTS)]
        return float(subprocess.run(words, check=True, stdout=subprocess.PIPE, text=True).stdout.split()[0])
    return ask


def gateway_serves(program, folder, site, text, plant, client):
    """How many requests a second `run` answers for its client: the program that it starts as its probe asks."""
    words = [client] if client else [sys.executable, f"{HERE}/measure.py"]
    write(f"{folder}/probe", "#!/bin/sh\n"
          f'case "$1" in simulate) exec {program} "$@";; esac\n'
          f'exec {" ".join(words)} "$2" "$4" {FIRST_REGISTER} {REGISTERS} {REQUESTS}\n')
    os.chmod(f"{folder}/probe", 0o755)
    run = Run([program, "run", site, text, "--plant", plant, "--scans", "1", "--exe", f"{folder}/probe"])
    return float(run.printed.splitlines()[-1].split()[0])


def write(path, content):
    with open(path, "wb") as file:
        file.write(content if isinstance(content, bytes) else content.encode())


def middle(numbers):
    return statistics.median(numbers)


if __name__ == "__main__":
    print(f"{requests_per_second(int(sys.argv[1])):.0f} requests/s")

"""What tools/try-serve and its plays share: simulators, clients, `sunsite serve` with its lines, and how plays are tried.

A play is a function of what it counts, the program, and a folder of its own. A host that withholds its processors makes devices slow
and waits short, so a play that failed is tried again, alone and with more patience.
"""

import os
import re
import socket
import struct
import subprocess
import tempfile
import threading
import time
from concurrent.futures import ThreadPoolExecutor

TOP = os.path.dirname(os.path.dirname(os.path.realpath(__file__)))
PLANT = """[[device]]
unit = 1
models = [1, 103, 123]
wmax = 5000
available = [{watts}]

[[device.value]]
model = 103
point = "W_SF"
raw = 0

[[device.value]]
model = 123
point = "WMaxLimPct_SF"
raw = -1
"""


class Counts:
    """What held in a play, what didn't, and what it measured."""

    def __init__(self):
        self.passed, self.failures, self.measured = 0, [], []

    def note(self, what, holds, seen=""):
        if holds:
            self.passed += 1
        else:
            self.failures.append(f"failed: {what} {seen}")

    def tell(self, what, text):
        self.measured.append(f"{what}: {text}")


class Patience:
    """How many times as long as on a quick host a play waits, and may take."""

    times = 1
    # when a play is tried again, and again
    later = (2, 4, 4)


def within(seconds):
    """A bound of time on this host."""
    return seconds * Patience.times


def state_of(status, name="lim1"):
    """What a status says of an output, except what its device took before."""
    return {key: it for key, it in status["outputs"][name].items() if key != "taken"}


class Trials:
    """The plays that were tried, each with what its last try counted."""

    def __init__(self, program):
        self.program, self.plays, self.done = os.path.abspath(program), [], []

    def once(self, play):
        """A try in a folder of its own; one that breaks off has failed."""
        own = Counts()
        try:
            with tempfile.TemporaryDirectory(prefix="try-serve-") as folder:
                play(own, self.program, folder)
        except Exception as why:
            own.note(title(play), False, repr(why))
        return own

    def add(self, plays, lanes=1):
        """Tries these, so many side by side."""
        with ThreadPoolExecutor(lanes) as pool:
            self.done += pool.map(self.once, plays)
        self.plays += plays

    def again(self):
        """Tries those that failed one by one, with more patience each time."""
        for n, play in enumerate(self.plays):
            for times in Patience.later:
                if not self.done[n].failures:
                    break
                print("\n".join(self.done[n].failures), f"once more alone, with {times} times as long: {title(play)}", sep="\n", flush=True)
                Patience.times = times
                self.done[n] = self.once(play)
        Patience.times = 1

    def verdict(self):
        """Of the last try of each play."""
        return verdict(self.done)


def verdict(counted):
    """Prints what failed, and how many clauses held and didn't; the status of a tool."""
    failures = [it for own in counted for it in own.failures]
    print("".join(f"{it}\n" for it in failures), end="")
    print(f"{sum(own.passed for own in counted)} passed, {len(failures)} failed")
    return 1 if failures else 0


def title(play):
    """The name of a play, with what it was given."""
    given = [f"{name}={value}" for name, value in getattr(play, "keywords", {}).items()]
    return " ".join([getattr(play, "func", play).__name__, *given])


def try_alone(words, plays, lanes=1):
    """What a file of plays does by itself; also prints what was measured."""
    trials = Trials(program_of(words))
    trials.add(plays, lanes)
    trials.again()
    for own in trials.done:
        print("".join(f"{it}\n" for it in own.measured), end="")
    return trials.verdict()


class Device:
    """A simulator behind a port that stays, with a new simulator for each connection."""

    def __init__(self, program, plant):
        self.program, self.plant, self.port, self.lock = program, plant, 0, threading.Lock()
        self.start()

    def start(self):
        self.door = socket.create_server(("127.0.0.1", self.port))
        self.port = self.door.getsockname()[1]
        self.sockets, self.simulators = [self.door], []
        threading.Thread(target=self.serve, args=(self.door,), daemon=True).start()

    def serve(self, door):
        while True:
            try:
                near, _ = door.accept()
            except OSError:
                return
            with self.lock:
                self.connect(near, door)

    def connect(self, near, door):
        """One that came as the device was killed is closed: a connection that ends is dialed again at once."""
        if self.door is not door:
            close(near)
            return
        simulator = subprocess.Popen([self.program, "simulate", self.plant], stdout=subprocess.PIPE, text=True)
        self.simulators.append(simulator)
        far = socket.create_connection(("127.0.0.1", int(simulator.stdout.readline().split()[1])))
        self.sockets += [near, far]
        for one, other in ((near, far), (far, near)):
            threading.Thread(target=pump, args=(one, other), daemon=True).start()

    def kill(self):
        with self.lock:
            self.door = None
            for it in self.sockets:
                close(it)
            for it in self.simulators:
                it.kill()
                it.wait()


def pump(one, other):
    try:
        while piece := one.recv(4096):
            other.sendall(piece)
    except OSError:
        pass
    close(one)
    close(other)


def close(it):
    try:
        it.shutdown(socket.SHUT_RDWR)
    except OSError:
        pass
    it.close()


class Client:
    """A Modbus TCP client."""

    def __init__(self, port, source="127.0.0.1"):
        self.socket = socket.create_connection(("127.0.0.1", port), 5, (source, 0))
        self.number, self.longest = 0, 0.0

    def ask(self, pdu, unit=1):
        self.number += 1
        began = time.monotonic()
        self.socket.sendall(struct.pack(">HHHB", self.number, 0, len(pdu) + 1, unit) + pdu)
        number, _, length, unit = struct.unpack(">HHHB", self.take(7))
        reply = self.take(length - 1)
        self.longest = max(self.longest, time.monotonic() - began)
        return reply if number == self.number else b"another number"

    def take(self, n):
        got = b""
        while len(got) < n:
            piece = self.socket.recv(n - len(got))
            if not piece:
                raise ConnectionError("closed")
            got += piece
        return got

    def read(self, addr, qty=1):
        reply = self.ask(struct.pack(">BHH", 3, addr, qty))
        return struct.unpack(f">{qty}H", reply[2:]) if reply[0] == 3 else reply

    def write(self, addr, value):
        return self.ask(struct.pack(">BHH", 6, addr, value))

    def close(self):
        close(self.socket)


class Service:
    """`sunsite serve`, and the lines that it printed so far."""

    def __init__(self, program, words, reads=True, errors=subprocess.PIPE):
        self.process = subprocess.Popen(self.command(program, words), stdout=subprocess.PIPE, stderr=errors, text=True)
        self.lines = []
        if reads:
            threading.Thread(target=self.listen, daemon=True).start()

    def command(self, program, words):
        return [program, "serve", *words]

    def listen(self):
        for line in self.process.stdout:
            self.lines.append(line.rstrip("\n"))

    def has(self, pattern, seconds=5.0, behind=0):
        """Whether such a line is there, or comes."""
        until = time.monotonic() + within(seconds)
        while not any(re.fullmatch(pattern, line) for line in self.lines[behind:]):
            if time.monotonic() >= until:
                return False
            time.sleep(0.01)
        return True

    def port(self):
        self.has(r"listening .*")
        return int([line for line in self.lines if line.startswith("listening ")][0].rsplit(":", 1)[1])

    def descriptors(self):
        return len(os.listdir(f"/proc/{self.process.pid}/fd"))

    def end(self):
        self.process.kill()
        self.process.wait()


def program_of(words):
    """The program itself, not the script that builds it."""
    if words:
        return words[0]
    subprocess.run([f"{TOP}/sunsite", "--help"], stdout=subprocess.DEVNULL, check=True)
    for path in (f"{TOP}/crates/sunsite/out/unproved/sunsite", f"{TOP}/crates/sunsite/out/sunsite"):
        if os.path.exists(path):
            return path
    raise SystemExit("there is no program")


def until(call, wanted, seconds=4.0):
    """The last result of a call, which is made until it is the wanted one."""
    end = time.monotonic() + within(seconds)
    while (got := call()) != wanted and time.monotonic() < end:
        time.sleep(0.02)
    return got


def files_of(folder, devices):
    """The site file, with the address of each device; the second one is unit 1 at its own address."""
    with open(f"{TOP}/examples/site.toml", encoding="utf-8") as it:
        text = it.read()
    text = text.replace('name = "inv1"\nunit = 1', f'name = "inv1"\nunit = 1\naddress = "127.0.0.1:{devices[0].port}"')
    text = text.replace('name = "inv2"\nunit = 2', f'name = "inv2"\nunit = 2\nremote_unit = 1\naddress = "127.0.0.1:{devices[1].port}"')
    with open(f"{folder}/site.toml", "w", encoding="utf-8") as it:
        it.write(text)
    return f"{folder}/site.toml"


def plant_of(folder, name, watts):
    path = f"{folder}/{name}.toml"
    with open(path, "w", encoding="utf-8") as it:
        it.write(PLANT.format(watts=watts))
    return path


def answers(port):
    try:
        Client(port).close()
        return True
    except OSError:
        return False


def text_of(path):
    if not os.path.exists(path):
        return None
    with open(path, encoding="utf-8") as it:
        return it.read()

"""Plays of tools/try-serve on `--reload`: another program in place of the one that runs, without a stop.

  tools/serve_reload_plays.py [PROGRAM]     these plays alone
"""

import hashlib
import json
import os
import select
import subprocess
import sys
import time

sys.dont_write_bytecode = True
from serve_client_plays import TIME, is_near
from serve_parts import TOP, Client, Service, text_of, try_alone, until
from serve_plays import LIMIT, put

# it counts the scans, each as so many, and has a variable beside
PROGRAM = """PROGRAM counts
VAR_EXTERNAL target, lim1 : INT; ena1 : BOOL; END_VAR
VAR scans : DINT (0..{most}) := {first}; {other} : INT (0..9) := {start}; END_VAR
  LD scans
  ADD {step}
  MIN {most}
  ST scans
  LD target
  ST lim1
  LD TRUE
  ST ena1
  LD {stored}
  ST {other}
END_PROGRAM
"""
PLANT = ("--plant", f"{TOP}/examples/plant.toml")
# a text that is no program, and one whose variable may leave its range
UNREAD = "PROGRAM p\nVAR x : INT (0..9); END_VAR\n  LOAD x\nEND_PROGRAM\n"
UNSAFE = "PROGRAM p\nVAR x : INT (0..9); END_VAR\n  LD x\n  ADD 1\n  ST x\nEND_PROGRAM\n"
REFUSED = {
    UNREAD: "read Operator line 3",
    UNSAFE: "verify StoreRange at 4",
}
SENTENCE = "the program in its file isn't accepted: the one before it goes on"


def program_text(step=1, other="beside", start=3, stored=5, most=1000000, first=0):
    return PROGRAM.format(step=step, other=other, start=start, stored=stored, most=most, first=first)


def digits(text):
    return hashlib.sha256(text.encode()).hexdigest()[:12]


def judged(program, site, text, folder):
    """What `check` prints of a text, after `refused: `, or its budget."""
    path = put(folder, "judged.il", text)
    ran = subprocess.run([program, "check", "--quiet", site, path], capture_output=True, text=True, check=False, timeout=20)
    return ran.stdout.strip().removeprefix("refused: ").removeprefix("accepted\nbudget ")


class Site:
    """A service over the plant, with its program in a file that may be changed."""

    def __init__(self, program, folder, text, words=("--reload",), plant=PLANT, every="100", errors=subprocess.PIPE, retain=("scans", "more")):
        self.program, self.folder, self.plant, self.every = program, folder, plant, every
        with open(f"{TOP}/examples/site.toml", encoding="utf-8") as it:
            names = ", ".join(f'"{name}"' for name in retain)
            self.site = put(folder, "site.toml", it.read().replace("base = 40000\n", f"base = 40000\nretain = [{names}]\n"))
        self.path, self.state, self.status_path = put(folder, "own.il", text), f"{folder}/state", f"{folder}/status"
        self.begin(words, errors)

    def begin(self, words, errors=subprocess.PIPE):
        more = ["--listen", "127.0.0.1:0", "--every", self.every, "--state", self.state, "--status-file", self.status_path]
        self.service = Service(self.program, [self.site, self.path, *self.plant, *more, *words], errors=errors)
        self.port = self.service.port()

    def replace(self, text):
        """Puts a whole text in the place of the file's."""
        os.replace(put(self.folder, "next.il", text), self.path)

    def status(self):
        text = text_of(self.status_path)
        return json.loads(text) if text else {}

    def alarms(self):
        return [(it["kind"], it["name"], it["cause"], it["text"]) for it in self.status().get("alarms", [None])]

    def variables(self):
        return self.status().get("variables", {})

    def told(self, behind=0):
        """The lines about programs so far, without their time."""
        lines = [it.split(" ", 1)[1] for it in self.service.lines[behind:] if " " in it]
        return [it for it in lines if it.startswith(("program ", "started "))]

    def errors(self):
        """What stands on standard error, once the service has ended."""
        self.service.end()
        return self.service.process.stderr.read()


def taken(counts, site, what, text, behind=0):
    """A text is taken: its lines, and the status file."""
    budget = judged(site.program, site.site, text, site.folder)
    counts.note(f"{what} is taken", site.service.has(rf"\d+\.\d{{3}} program taken budget {budget}", 4, behind), (budget, site.service.lines[behind:]))
    started = [it for it in site.told(behind) if it.startswith("started ")]
    counts.note(f"{what}: its start", len(started) == 1 and started[0].endswith(f" program {digits(text)}"), started)
    words = started[0].split() if started else [""] * 9
    counts.note(f"{what}: its time", is_near(words[1]), started)
    until(lambda: site.status().get("started", {}).get("program"), digits(text))
    shown = site.status()["started"]
    counts.note(f"{what}: in the status file", [shown[key] for key in ("time", "version", "site", "program")] == [words[1], words[3], words[5], words[7]], (shown, started))


def play_taken(counts, program, folder):
    """Another program goes on with the numbers of the one before it, and nobody notices else."""
    first, second = program_text(), program_text(step=1000, other="more", start=7, stored=8)
    site = Site(program, folder, first)
    client = Client(site.port)
    counts.note("a client sets", client.write(LIMIT, 60)[0] == 6)
    counts.note("the first program runs", until(lambda: site.variables().get("beside"), 5) == 5, site.variables())
    before, told, scans = site.variables(), len(site.service.lines), site.status()["scans"]
    site.replace(second)
    taken(counts, site, "another program", second, told)
    counts.note("its variables are kept at once", until(lambda: "VAR more=" in text_of(site.state), True) and text_of(site.state).startswith("target=60\nVAR scans="), text_of(site.state))
    now = until(lambda: site.variables().get("more"), 8) and site.variables()
    counts.note("the variables are its own", sorted(now) == ["more", "scans"] and now["more"] == 8, now)
    spent = site.status()["scans"] - scans
    counts.note("a number goes on", before["scans"] + 1000 <= now["scans"] <= before["scans"] + 1000 * spent, (before, now, spent))
    counts.note("the client is there, and what it set", client.read(LIMIT) == (60,) and site.status()["set"] == {"target": 60}, client.read(LIMIT))
    counts.note("nothing else is told", all("started" in it or "program taken" in it for it in site.service.lines[told:]), site.service.lines[told:])
    counts.note("nothing is wrong", site.alarms() == [], site.alarms())
    play_back(counts, site, first, client)


def play_back(counts, site, first, client):
    """The one before it again, and then a restart."""
    told = len(site.service.lines)
    site.replace(first)
    taken(counts, site, "the first program", first, told)
    counts.note("its other variable begins anew, and isn't kept", until(lambda: "VAR more=" in text_of(site.state), False) is False, text_of(site.state))
    counts.note("the client is still there", client.read(LIMIT) == (60,), client.read(LIMIT))
    told = len(site.service.lines)
    site.replace(program_text(step=2, other="more", start=7, stored=8))
    counts.note("and the other one", site.service.has(r"\S+ program taken budget \d+", 4, told), site.service.lines[told:])
    until(lambda: "VAR more=" in text_of(site.state), True)
    kept = dict(it.split("=") for it in text_of(site.state).splitlines())
    errors = site.errors()
    # (what the status file says then is of the next start)
    os.remove(site.status_path)
    counts.note("names of no variable are told", errors.count("'retain' names more, and the program has no such variable") == 2, errors)
    site.begin(["--reload"])
    now = until(lambda: site.variables().get("more"), 8) and site.variables()
    counts.note("a restart goes on with its variables", int(kept["VAR scans"]) < now["scans"] <= int(kept["VAR scans"]) + 2 * site.status()["scans"], (kept, now))
    counts.note("nothing was left out", not any("left out" in it for it in site.service.lines), site.service.lines)
    site.service.end()


def play_ranges(counts, program, folder):
    """A number that lies outside the new range begins at its start value; so does one of another type."""
    site = Site(program, folder, program_text(first=500))
    until(lambda: site.variables().get("beside"), 5)
    site.replace(program_text(most=400, first=7, step=1))
    counts.note("a narrower range", site.service.has(r"\S+ program taken budget \d+") and until(lambda: 7 < site.variables()["scans"] < 100, True), site.variables())
    told, before = len(site.service.lines), site.variables()
    site.replace(program_text(most=400, first=300).replace("scans : DINT", "scans : INT"))
    counts.note("another type", site.service.has(r"\S+ program taken budget \d+", behind=told) and until(lambda: site.variables()["scans"] > 300, True), (before, site.variables()))
    site.service.end()


def play_refused(counts, program, folder):
    """What isn't accepted is told once, with a note, and stands as an alarm until it is settled."""
    first = program_text()
    site = Site(program, folder, first)
    until(lambda: site.variables().get("beside"), 5)
    told = len(site.service.lines)
    for text, begin in REFUSED.items():
        cause, behind = judged(program, site.site, text, folder), len(site.service.lines)
        site.replace(text)
        counts.note(f"refused: {cause}", cause.startswith(begin) and site.service.has(rf"\d+\.\d{{3}} program refused {cause}", behind=behind), (cause, site.service.lines[behind:]))
        wanted = [("program_refused", "program", cause, SENTENCE)]
        counts.note(f"its alarm: {cause}", until(site.alarms, wanted) == wanted, site.alarms())
    since = site.status()["alarms"][0]["since"]
    counts.note("since the first refusal", since <= site.status()["seconds"] - 2, site.status()["alarms"])
    scans = site.variables()["scans"]
    time.sleep(2.3)
    counts.note("each is told once", len(site.told(told)) == 2, site.told(told))
    counts.note("the old program goes on", site.variables()["scans"] > scans + 10 and site.status()["started"]["program"] == digits(first), site.status())
    behind = len(site.service.lines)
    site.replace(first)
    counts.note("the old text again", until(site.alarms, []) == [], site.alarms())
    site.replace(UNSAFE)
    counts.note("what was refused before is judged again", site.service.has(r"\S+ program refused verify .*", behind=behind), site.service.lines[behind:])
    second = program_text(step=2)
    site.replace(second)
    taken(counts, site, "one that is accepted", second, behind)
    counts.note("its alarm is over", until(site.alarms, []) == [], site.alarms())
    errors = site.errors()
    told = [errors.count(it) for it in ("own.il:3: Operator: LOAD is no operator", "own.il:5: StoreRange: ", "own.il")]
    counts.note("the notes", told == [1, 2, 3], errors)


def play_unread(counts, program, folder):
    """A file that isn't there, is a folder, a pipe or no text."""
    first = program_text()
    site = Site(program, folder, first)
    until(lambda: site.variables().get("beside"), 5)
    line, wanted = f"program refused file {site.path}", [("program_refused", "program", f"file {site.path}", SENTENCE)]
    for what, make, clear in (
        ("no file", lambda: None, lambda: None),
        ("a pipe", lambda: os.mkfifo(site.path), lambda: os.remove(site.path)),
        ("a folder", lambda: os.mkdir(site.path), lambda: os.rmdir(site.path)),
    ):
        behind = len(site.service.lines)
        os.remove(site.path)
        make()
        counts.note(f"{what} is refused", until(lambda: site.told(behind), [line]) == [line], site.told(behind))
        counts.note(f"{what}: its alarm", until(site.alarms, wanted) == wanted, site.alarms())
        clear()
        site.replace(first)
        counts.note(f"{what}: over", until(site.alarms, []) == [] and site.told(behind) == [line], (site.alarms(), site.told(behind)))
    behind = len(site.service.lines)
    with open(site.path, "wb") as it:
        it.write(b"PROGRAM \xff")
    counts.note("no text", until(lambda: site.told(behind), [line]) == [line], site.told(behind))
    errors = site.errors()
    for why in ("there is no such file", "it can't be read to its end", "it is a folder", "the text isn't UTF-8"):
        counts.note(f"the note: {why}", errors.count(f"{site.path}: file: {why}") == 1, errors)


def play_half(counts, program, folder):
    """A file that is being written, or isn't there for a moment, is nothing yet."""
    first, second = program_text(), program_text(step=3)
    site = Site(program, folder, first)
    until(lambda: site.variables().get("beside"), 5)
    told = len(site.service.lines)
    with open(site.path, "w", encoding="utf-8") as it:
        for n in range(0, len(second), len(second) // 8):
            it.write(second[n : n + len(second) // 8])
            it.flush()
            time.sleep(0.4)
    began = time.monotonic()
    counts.note("nothing is told while it is written", site.told(told) == [], site.told(told))
    taken(counts, site, "once it is whole", second, told)
    counts.note("a second after that", 0.9 < time.monotonic() - began + 0.4 < 3.5, time.monotonic() - began)
    told = len(site.service.lines)
    for _ in range(3):
        os.remove(site.path)
        time.sleep(0.7)
        put(folder, "own.il", second)
        time.sleep(1.6)
        os.utime(site.path)
    counts.note("a file that is gone for a moment", site.told(told) == [] and site.alarms() == [], (site.told(told), site.alarms()))
    for text in (UNREAD, program_text(step=4), UNSAFE):
        site.replace(text)
        time.sleep(0.5)
    site.replace(second)
    time.sleep(2.5)
    counts.note("texts of half a second", site.told(told) == [], site.told(told))
    counts.note("no note", site.errors().count("own.il") == 0)


def play_words(counts, program, folder):
    """Standard input can't be looked at again; without the option nothing is looked at; and --quiet."""
    text = program_text()
    site = Site(program, folder, text, words=())
    until(lambda: site.variables().get("beside"), 5)
    for other in (UNREAD, program_text(step=1000)):
        site.replace(other)
        time.sleep(2.3)
    counts.note("without --reload", site.told() == [] and site.variables()["scans"] < 1000 and site.alarms() == [], (site.told(), site.variables()))
    errors = site.errors()
    counts.note("without --reload: no note", errors.count("own.il") == 0, errors)
    ran = subprocess.run([program, "serve", site.site, "-", "--reload"], input=text, capture_output=True, text=True, check=False, timeout=20)
    counts.note("standard input", (ran.returncode, ran.stdout) == (2, "") and "'-' can't be the program of '--reload'" in ran.stderr, ran)
    with open(site.path, "w", encoding="utf-8") as it:
        it.write(text)
    site.begin(["--reload", "--quiet", "--times", "utc"])
    until(lambda: site.variables().get("beside"), 5)
    site.replace(UNREAD)
    counts.note("--quiet: refused", site.service.has(rf"{TIME} program refused read \S+ line 3"), site.service.lines)
    site.replace(program_text(step=2))
    counts.note("--quiet: taken", site.service.has(rf"{TIME} started {TIME} sunsite .*") and site.service.has(rf"{TIME} program taken budget \d+"), site.service.lines)
    errors = site.errors()
    counts.note("--quiet: nothing on standard error", errors == "", errors)


def full_pipe():
    """Both ends of a pipe that takes no byte more, whose writers wait for that."""
    near, far = os.pipe()
    os.set_blocking(far, False)
    try:
        while True:
            os.write(far, 4096 * b".")
    except BlockingIOError:
        os.set_blocking(far, True)
    return near, far


def play_full(counts, program, folder):
    """Nobody reads standard error, and it takes nothing any more."""
    near, far = full_pipe()
    site = Site(program, folder, program_text(), errors=far, retain=("scans",))
    until(lambda: site.variables().get("beside"), 5)
    site.replace(UNREAD)
    counts.note("a full standard error: refused", site.service.has(r"\S+ program refused read Operator line 3"), site.service.lines)
    scans = site.status()["scans"]
    time.sleep(0.5)
    counts.note("a full standard error: the service goes on", site.status()["scans"] > scans + 2, site.status())
    filled = os.read(near, 2**20)
    counts.note("it was full", len(filled) >= 65536 and set(filled) == {46}, len(filled))
    site.replace(UNSAFE)
    counts.note("and the next one", site.service.has(r"\S+ program refused verify StoreRange at 4"), site.service.lines)
    select.select([near], [], [], 5)
    site.service.end()
    os.close(far)
    errors = b""
    while piece := os.read(near, 65536):
        errors += piece
    os.close(near)
    counts.note("that note is written again", b"StoreRange" in errors and b"Operator" not in errors, errors[-300:])


def play_order(counts, program, folder):
    """In one stream the line comes first, and then the note."""
    site = Site(program, folder, program_text(), errors=subprocess.STDOUT, retain=("scans", "gone"))
    until(lambda: site.variables().get("beside"), 5)
    site.replace(UNREAD)
    counts.note("the note comes", site.service.has(rf"{site.path}:3: Operator: LOAD is no operator"), site.service.lines)
    notes = [n for n, it in enumerate(site.service.lines) if it.startswith(f"{site.path}:3: ")]
    counts.note("after its line", [site.service.lines[n - 1].split(" ", 1)[1] for n in notes] == ["program refused read Operator line 3"], site.service.lines)
    told = len(site.service.lines)
    site.replace(program_text(step=2))
    counts.note("the warning comes", site.service.has(r".* 'retain' names gone, .*", behind=told), site.service.lines)
    lines = [it.split(" ", 1)[1] for it in site.service.lines[told:]]
    counts.note("after its lines", [it.split(" ")[0] for it in lines[:3]] == ["started", "program", "warning:"], lines)
    site.service.end()


def play_busy(counts, program, folder):
    """Programs that come while devices are asked: they answer late, so that a request is under way most of the time."""
    plant = put(folder, "plant.toml", text_of(f"{TOP}/examples/plant.toml").replace("unit = 1\n", "unit = 1\nslow = 150\n").replace("unit = 2\n", "unit = 2\nslow = 150\n"))
    site = Site(program, folder, program_text(), ("--reload", "--verbose"), ("--plant", plant), "650")
    client = Client(site.port)
    client.write(LIMIT, 70)
    until(lambda: site.variables().get("beside"), 5)
    for step in range(2, 7):
        behind, before = len(site.service.lines), site.variables()["scans"]
        site.replace(program_text(step=1000 * step))
        counts.note(f"while devices are asked: program {step} is taken", site.service.has(r"\S+ program taken budget \d+", 4, behind), site.service.lines[behind:])
        after = len([it for it in site.service.lines if it.startswith("scan ")])
        now = until(lambda: site.variables()["scans"] >= before + 1000 * step, True) and site.variables()["scans"]
        counts.note(f"while devices are asked: program {step} goes on", before + 1000 * step <= now, (before, now, after))
    counts.note("nothing is lost or unwritten meanwhile", not any(" lost " in it and not it.endswith(" lost 0") or "unwritten" in it or " late " in it for it in site.service.lines), site.service.lines)
    counts.note("each scan has all its reads and writes", all(it.endswith(" writes 2 refused 0 lost 0") for it in site.service.lines if it.startswith("scan ")), site.service.lines)
    counts.note("the client is there", client.read(LIMIT) == (70,), client.read(LIMIT))
    site.service.end()


PLAYS = (play_taken, play_ranges, play_refused, play_unread, play_half, play_words, play_full, play_order, play_busy)
# (each waits for looks, a second apart, most of its time; a host with few processors makes the rounds of more late)
LANES = 4


if __name__ == "__main__":
    sys.exit(try_alone(sys.argv[1:], PLAYS, LANES))

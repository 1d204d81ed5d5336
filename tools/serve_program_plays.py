"""Plays of tools/try-serve on the program that was accepted last: it is kept, and runs where the one in its file can't.

  tools/serve_program_plays.py [PROGRAM]     these plays alone
"""

import os
import subprocess
import sys
import time

sys.dont_write_bytecode = True
from serve_parts import TOP, text_of, try_alone, until
from serve_reload_plays import PLANT, SENTENCE, UNREAD, UNSAFE, Site, digits, judged, program_text, taken
from serve_plays import put


def kept_text(text):
    """What the file of the kept program has."""
    return f"sunsite program 1 {digits(text)}\n{text}"


def kept_path(site):
    return f"{site.state}.program"


def is_kept(site, text):
    return until(lambda: text_of(kept_path(site)), kept_text(text)) == kept_text(text)


def begun(program, folder, text, **more):
    """A service that runs a program, and has kept it."""
    site = Site(program, folder, text, **more)
    until(lambda: site.variables().get("beside"), 5)
    return site


def again(site, words=()):
    """A restart."""
    if os.path.exists(site.status_path):
        os.remove(site.status_path)
    site.begin(list(words))
    until(lambda: "started" in site.status(), True)


def start(site, *words, state=True):
    """What a start prints that ends by itself."""
    more = ["--state", site.state] if state else []
    words = [site.site, site.path, *PLANT, "--listen", "127.0.0.1:0", "--every", "100", "--scans", "2", *more, *words]
    return subprocess.run([site.program, "serve", *words], capture_output=True, text=True, check=False, timeout=20)


def in_its_place(counts, site, what, text, cause):
    """A kept program runs in place of the one in its file, for this cause: its lines, the status file, the alarm."""
    lines = [f"program refused {cause}", f"program kept {digits(text)}"]
    counts.note(f"{what}: its lines", until(site.told, lines) == lines, site.service.lines)
    budget = judged(site.program, site.site, text, site.folder)
    first = site.service.lines[:4]
    counts.note(f"{what}: the start", first[0].endswith(f" program {digits(text)}") and first[1:3] == ["accepted", f"budget {budget}"], first)
    counts.note(f"{what}: in the status file", site.status()["started"]["program"] == digits(text), site.status())
    wanted = [("program_refused", "program", cause, SENTENCE)]
    counts.note(f"{what}: its alarm", until(site.alarms, wanted) == wanted, site.alarms())
    counts.note(f"{what}: it runs", until(lambda: site.variables().get("beside"), 5) == 5, site.variables())


def play_wrong(counts, program, folder):
    """A file with a wrong program at a restart: the last good one runs, until a start whose own program is accepted."""
    first = program_text()
    site = begun(program, folder, first, words=())
    counts.note("a program is kept", is_kept(site, first), text_of(kept_path(site)))
    counts.note("it is told by nothing", site.told() == [] and site.alarms() == [], (site.told(), site.alarms()))
    site.service.end()
    number = os.stat(kept_path(site)).st_ino
    kept = int(dict(it.split("=") for it in text_of(site.state).splitlines()).get("VAR scans", 0))
    for text in (UNREAD, UNSAFE):
        cause = judged(program, site.site, text, folder)
        site.replace(text)
        again(site)
        in_its_place(counts, site, cause, first, cause)
        counts.note(f"{cause}: its variables go on", site.variables()["scans"] > kept, (kept, site.variables()))
        time.sleep(1.2)
        counts.note(f"{cause}: it is told once", len(site.told()) == 2, site.told())
        site.replace(first)
        time.sleep(2.3)
        counts.note(f"{cause}: without --reload the alarm stands", len(site.alarms()) == 1, site.alarms())
        errors = site.errors()
        counts.note(f"{cause}: its note", errors.startswith(f"{site.path}:") and errors.count("own.il") == 1, errors)
    counts.note("what is kept isn't written again", os.stat(kept_path(site)).st_ino == number and is_kept(site, first))
    second = program_text(step=2)
    site.replace(second)
    again(site)
    until(lambda: site.variables().get("beside"), 5)
    counts.note("a start whose program is accepted", site.told() == [] and site.alarms() == [] and site.status()["started"]["program"] == digits(second), site.status())
    counts.note("that one is kept", is_kept(site, second), text_of(kept_path(site)))
    site.service.end()


def play_missing(counts, program, folder):
    """No file: the last good program runs, and with --reload one takes its place once there is a file."""
    first, second = program_text(), program_text(step=1000)
    site = begun(program, folder, first)
    counts.note("a program is kept", is_kept(site, first))
    site.service.end()
    for what, make, clear in (
        ("no file", lambda: None, lambda: None),
        ("a folder", lambda: os.mkdir(site.path), lambda: os.rmdir(site.path)),
    ):
        os.remove(site.path)
        make()
        again(site, ["--reload"])
        in_its_place(counts, site, what, first, f"file {site.path}")
        time.sleep(3.3)
        counts.note(f"{what}: it is told once", len(site.told()) == 2, site.told())
        clear()
        site.replace(first)
        counts.note(f"{what}: the alarm ends", until(site.alarms, []) == [] and len(site.told()) == 2, (site.alarms(), site.told()))
        errors = site.errors()
        counts.note(f"{what}: its note", errors.count(f"{site.path}: file: ") == 1, errors)
    os.remove(site.path)
    again(site, ["--reload"])
    in_its_place(counts, site, "once more", first, f"file {site.path}")
    told = len(site.service.lines)
    site.replace(second)
    taken(counts, site, "another one", second, told)
    counts.note("another one ends the alarm", until(site.alarms, []) == [], site.alarms())
    counts.note("another one is kept", is_kept(site, second), text_of(kept_path(site)))
    site.service.end()


def play_reloaded(counts, program, folder):
    """What is kept is what was accepted last, also while the service ran."""
    first, second = program_text(), program_text(step=1000)
    site = begun(program, folder, first)
    site.replace(second)
    counts.note("the second is taken", site.service.has(r"\S+ program taken budget \d+", 4), site.service.lines)
    counts.note("and kept", is_kept(site, second), text_of(kept_path(site)))
    site.replace(UNREAD)
    counts.note("a wrong one is refused", site.service.has(r"\S+ program refused read .*", 4), site.service.lines)
    counts.note("and not kept", is_kept(site, second), text_of(kept_path(site)))
    site.service.process.kill()
    site.service.end()
    again(site, ["--reload"])
    in_its_place(counts, site, "after a kill", second, "read Operator line 3")
    time.sleep(3.3)
    counts.note("it is told once", len(site.told()) == 2, site.told())
    site.replace(UNSAFE)
    cause = judged(program, site.site, UNSAFE, folder)
    counts.note("another wrong one", site.service.has(rf"\S+ program refused {cause}"), site.service.lines)
    site.replace(UNREAD)
    counts.note("and the one before it again", until(lambda: len(site.told()), 4) == 4, site.told())
    told = len(site.service.lines)
    site.replace(first)
    taken(counts, site, "the first one", first, told)
    counts.note("the alarm ends", until(site.alarms, []) == [], site.alarms())
    counts.note("the first one is kept", is_kept(site, first), text_of(kept_path(site)))
    errors = site.errors()
    counts.note("the notes", [errors.count(it) for it in ("own.il:3: Operator: ", "own.il:5: StoreRange: ")] == [2, 1], errors)


def play_damaged(counts, program, folder):
    """A kept program that isn't whole, or isn't accepted for the site any more: the start is refused as without one."""
    first = program_text()
    site = begun(program, folder, first, words=())
    counts.note("a program is kept", is_kept(site, first))
    site.service.end()
    path, whole = kept_path(site), kept_text(first)
    os.remove(path)
    plain = {}
    for what, change in (("wrong", lambda: site.replace(UNREAD)), ("missing", lambda: os.remove(site.path))):
        change()
        plain[what] = start(site)
        counts.note(f"{what}: without a kept one", plain[what].returncode == 1 and plain[what].stdout.startswith("refused: ") and not os.path.exists(path), plain[what])
        put(folder, "state.program", whole)
        ran = start(site)
        counts.note(f"{what}: with one", ran.returncode == 0 and f" program kept {digits(first)}\n" in ran.stdout, ran)
        for name, text in (
            ("empty", ""),
            ("cut", whole[:-1]),
            ("longer", whole + "\n"),
            ("a byte less in the hash", whole.replace(digits(first), digits(first)[:-1])),
            ("another hash", whole.replace(digits(first), digits(UNREAD))),
            ("another version", whole.replace("program 1 ", "program 2 ")),
            ("no first line", first),
            ("another byte", whole.replace("MIN", "MAX")),
            ("no text", b"\xff"),
        ):
            with open(path, "wb") as it:
                it.write(text if isinstance(text, bytes) else text.encode())
            ran = start(site)
            lines = ran.stderr.split("\n", 2)
            counts.note(f"{what}, {name}: refused", (ran.returncode, ran.stdout) == (1, plain[what].stdout), ran)
            counts.note(f"{what}, {name}: its note", lines[0].startswith(f"{path}: warning: ") and lines[2] == plain[what].stderr, ran)
        ran = start(site, "--quiet")
        counts.note(f"{what}: --quiet", (ran.returncode, ran.stdout, ran.stderr) == (1, plain[what].stdout, ""), ran)
        os.remove(path)
        os.mkdir(path)
        ran = start(site)
        counts.note(f"{what}, a folder", (ran.returncode, ran.stdout) == (1, plain[what].stdout) and ran.stderr.endswith(plain[what].stderr), ran)
        os.rmdir(path)
        site.replace(first)
    put(folder, "state.program", whole)
    with open(site.site, encoding="utf-8") as it:
        text = it.read()
    put(folder, "site.toml", text.replace('"lim1"', '"lim"'))
    for what, change in (("wrong", lambda: site.replace(UNREAD)), ("missing", lambda: os.remove(site.path))):
        change()
        ran = start(site)
        counts.note(f"{what}, another site", (ran.returncode, ran.stdout, ran.stderr) == (1, plain[what].stdout, plain[what].stderr), ran)
    put(folder, "site.toml", text.replace("[gateway]", "[gatewa]"))
    site.replace(UNREAD)
    ran = start(site)
    counts.note("a site that is none", ran.returncode == 1 and ran.stdout.startswith("refused: site ") and ".program" not in ran.stderr, ran)
    counts.note("nothing was written over", text_of(path) == whole, text_of(path))


def play_unwritten(counts, program, folder):
    """A program that can't be kept is told once, and the service goes on."""
    first = program_text()
    site = Site(program, folder, first)
    site.service.end()
    path = kept_path(site)
    if os.path.exists(path):
        os.remove(path)
    os.mkdir(path)
    again(site)
    counts.note("it can't be kept", site.service.has(r"\d+\.\d{3} program unwritten"), site.service.lines)
    until(lambda: site.variables().get("beside"), 5)
    time.sleep(0.5)
    counts.note("that is told once", site.told() == ["program unwritten"], site.told())
    os.rmdir(path)
    counts.note("it can again", site.service.has(r"\d+\.\d{3} program written") and is_kept(site, first), site.service.lines)
    site.service.end()


def play_without(counts, program, folder):
    """Without --state nothing is kept; and PATH.program is no other file of the command."""
    site = begun(program, folder, program_text(), words=())
    site.service.end()
    files = sorted(os.listdir(folder))
    site.replace(program_text(step=2))
    ran = start(site, state=False)
    counts.note("without --state nothing is kept", ran.returncode == 0 and sorted(os.listdir(folder)) == files and is_kept(site, program_text()), (ran, os.listdir(folder)))
    site.replace(UNREAD)
    ran = start(site, state=False)
    counts.note("and nothing runs", (ran.returncode, ran.stdout) == (1, "refused: read Operator line 3\n"), ran)
    own = put(folder, "own.program", program_text())
    words = [site.site, own, *PLANT, "--listen", "127.0.0.1:0", "--scans", "1"]
    for more, status in ((["--state", f"{folder}/own"], 2), (["--state", f"{folder}/other", "--status-file", f"{folder}/other.program"], 2), (["--state", f"{folder}/other"], 0)):
        ran = subprocess.run([program, "serve", *words, *more], capture_output=True, text=True, check=False, timeout=20)
        counts.note(f"{more}", ran.returncode == status and ("PATH.program" in ran.stderr) == (status == 2), ran)
    counts.note("the program isn't written over", text_of(own) == program_text(), text_of(own))
    ran = subprocess.run([program, "serve", site.site, "-", *PLANT, "--listen", "127.0.0.1:0", "--scans", "1", "--state", f"{folder}/other"], input=UNREAD, capture_output=True, text=True, check=False, timeout=20)
    counts.note("a wrong program of standard input", ran.returncode == 0 and f" program kept {digits(program_text())}\n" in ran.stdout, ran)


PLAYS = (play_wrong, play_missing, play_reloaded, play_damaged, play_unwritten, play_without)
# (each waits most of its time)
LANES = 3


if __name__ == "__main__":
    sys.exit(try_alone(sys.argv[1:], PLAYS, LANES))

"""Plays of tools/try-serve on the paths of a command line: what is written is no other file of the command, whatever it is called
there, and goes through no link."""

import os
import shutil
import subprocess

from serve_lock_plays import PLANT, is_refused, start
from serve_parts import TOP, text_of

DEFINITION = f"{TOP}/models/model_201.json"


def files_of(folder):
    """The text of each file in a folder, and where each link leads."""
    found = {}
    for name in sorted(os.listdir(folder)):
        path = f"{folder}/{name}"
        found[name] = os.readlink(path) if os.path.islink(path) else text_of(path)
    return found


def play_one_file(counts, program, folder):
    """What would be written over another file of the command is refused before anything is written."""
    site, source, plant = f"{folder}/site.toml", f"{folder}/p.il", f"{folder}/plant.toml"
    for name, path in (("site.toml", site), ("limiter.il", source), ("plant.toml", plant)):
        shutil.copy(f"{TOP}/examples/{name}", path)
    os.symlink("site.toml", f"{folder}/a_link")
    os.link(source, f"{folder}/hard.il")
    os.symlink(f"{folder}/p.il", f"{folder}/kept.program")
    os.link(site, f"{folder}/made.new")
    with open(f"{folder}/there", "w", encoding="utf-8"):
        pass
    os.link(f"{folder}/there", f"{folder}/there_too")
    before = files_of(folder)
    serve = ["serve", site, source, "--plant", plant, "--listen", "127.0.0.1:0", "--every", "100", "--scans", "1"]
    run = ["run", site, source, "--plant", plant, "--scans", "1"]
    reads, kept, made, one = "is a file that the command reads", "keeps the program in PATH.program", "makes PATH.new and PATH.lock", "are one file"
    for words, why in (
        ([*serve, "--status-file", site], f"'--status-file' {reads}"),
        ([*serve, "--status-file", f"{folder}/./site.toml"], f"'--status-file' {reads}"),
        ([*serve, "--status-file", f"{folder}/a_link"], f"'--status-file' {reads}"),
        ([*serve, "--status-file", f"{folder}/hard.il"], f"'--status-file' {reads}"),
        ([*serve, "--status-file", plant], f"'--status-file' {reads}"),
        ([*serve, "--status-file", f"{folder}/made"], "is written as PATH.new first"),
        ([*serve, "--state", site], "'--state' is another file of the command"),
        ([*serve, "--state", f"{folder}/kept"], kept),
        ([*serve, "--state", f"{folder}/made"], made),
        ([*serve, "--state", f"{folder}/there", "--status-file", f"{folder}/there_too"], one),
        ([*serve, "--state", f"{folder}/none", "--status-file", f"{folder}/none"], one),
        ([*serve, "--state", f"{folder}/none", "--status-file", f"{folder}/none.program"], kept),
        ([*serve, "--state", f"{folder}/none", "--status-file", f"{folder}/none.lock"], made),
        ([*serve, "--state", f"{folder}/none.new", "--status-file", f"{folder}/none"], "'--state' is another file of the command"),
        ([*run, "--trace", f"{folder}/a_link"], f"'--trace' {reads}"),
        ([*run, "--report", f"{folder}/hard.il"], f"'--report' {reads}"),
        ([*run, "--trace", f"{folder}/there", "--report", f"{folder}/there_too"], one),
    ):
        ran = subprocess.run([program, *words], capture_output=True, text=True, check=False, timeout=20)
        counts.note(f"{words[-4:]}", ran.returncode == 2 and not ran.stdout and why in ran.stderr, ran)
    counts.note("nothing was written", files_of(folder) == before, files_of(folder))
    own = f"{folder}/models"
    os.mkdir(own)
    shutil.copy(DEFINITION, f"{own}/m.json")
    for words in ([*serve, "--def", own, "--status-file", f"{own}/m.json"], [*run, "--def", own, "--trace", f"{own}/m.json"]):
        ran = subprocess.run([program, *words], capture_output=True, text=True, check=False, timeout=20)
        counts.note("a definition of a folder", ran.returncode == 2 and reads in ran.stderr and text_of(f"{own}/m.json") == text_of(DEFINITION), ran)


def play_links(counts, program, folder):
    """Files that are made go through no link, and nothing waits for a pipe."""
    state, other = f"{folder}/state", f"{folder}/other"
    for name in ("state.new", "status.new", "state.program.new"):
        with open(f"{other}.{name}", "w", encoding="utf-8") as it:
            it.write("of another one\n")
        os.symlink(f"{other}.{name}", f"{folder}/{name}")
    ran = start(program, *PLANT, "--state", state, "--status-file", f"{folder}/status")
    counts.note("a link where a file is made is taken away", ran.returncode == 0, ran)
    stays = all(text == "of another one\n" for name, text in files_of(folder).items() if name.startswith("other"))
    counts.note("and what it led to stays", stays and not os.path.islink(f"{folder}/status"), files_of(folder))
    os.mkfifo(f"{folder}/state.new")
    ran = start(program, *PLANT, "--state", state)
    counts.note("so is a pipe", ran.returncode == 0 and not os.path.exists(f"{folder}/state.new"), ran)
    os.remove(f"{folder}/state.lock")
    os.symlink(f"{other}.state.new", f"{folder}/state.lock")
    ran = start(program, *PLANT, "--state", state)
    counts.note("a link in place of the lock", is_refused(ran, state, "NotAFile"), ran)
    os.remove(f"{folder}/state.lock")
    os.mkfifo(f"{folder}/state.lock")
    ran = start(program, *PLANT, "--state", state)
    counts.note("a pipe in its place", is_refused(ran, state, "NotAFile"), ran)
    for name in ("pipe", "piped.program"):
        os.mkfifo(f"{folder}/{name}")
        path = f"{folder}/{name.removesuffix('.program')}"
        ran = start(program, *PLANT, "--state", path)
        said = ran.returncode == 1 and ran.stdout == f"refused: state {path} NotAFile\n" and f"state {path}: NotAFile: " in ran.stderr
        counts.note(f"a pipe as {name}", said, ran)
    ran = start(program, *PLANT, "--state", "/dev/null", "--quiet")
    counts.note("a device", (ran.returncode, ran.stdout, ran.stderr) == (1, "refused: state /dev/null NotAFile\n", ""), ran)


PLAYS = (play_one_file, play_links)

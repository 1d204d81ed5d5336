"""Plays of tools/try-serve on the window for browsers and monitors: what is asked and answered over HTTP, and what isn't."""

import base64
import hashlib
import json
import re
import socket
import time
import urllib.parse

from serve_parts import TOP, Client, Service, text_of, until, within
from serve_plays import DEVICE, GATEWAY, LIMIT, OwnDevice, inverter, put

# a name with letters that end a label or a line
HOSTILE = 'in\\"v\\\\1'
# what the site is called: marks that are text
NAME = "Süd <b>'&"
SITE = """[[tag]]
name = "w1"
access = "in"
device = "{device}"
model = 103
point = "W"
type = "DINT"
low = -400
high = 65534
exponent = 0

[[tag]]
name = "lim1"
access = "out"
device = "{device}"
model = 123
point = "WMaxLimPct"
type = "INT"
low = 0
high = 100
exponent = 0

[[tag]]
name = "target"
access = "set"
model = 123
point = "WMaxLimPct"
type = "INT"
low = 0
high = 100
exponent = 0
default = 50
lapse = 60

[[served]]
model = 123
point = "WMaxLimPct_SF"
value = 0
"""
MORE_TAGS = "".join(
    f"""[[tag]]
name = "w{n}"
access = "in"
device = "{{device}}"
model = 103
point = "W"
type = "DINT"
low = -400
high = 65534
exponent = 0

"""
    for n in range(2, 21)
)
SUM = """[[served]]
model = 103
point = "W"
sum = ["w1", "w2"]

[[served]]
model = 103
point = "W_SF"
value = 0
"""
PROGRAM = """PROGRAM page
VAR_EXTERNAL
  lim1, target : INT;
END_VAR
  LD target
  ST lim1
END_PROGRAM
"""



class Window:
    """A service with a window, its device, and a socket of one who looks."""

    def __init__(self, program, folder, name, *more, tags=""):
        self.device = OwnDevice({1: inverter(1500)})
        text = GATEWAY + f'name = "{NAME}"\n' + DEVICE.format(n=1).replace('"inv1"', f'"{HOSTILE}"') + f'remote_unit = 1\nrated = 5000\naddress = "{self.device.address()}"\n'
        site = put(folder, f"{name}.toml", text + SITE.format(device=HOSTILE) + tags.format(device=HOSTILE))
        words = [site, put(folder, f"{name}.il", PROGRAM), "--listen", "127.0.0.1:0", "--every", "100", "--page", "127.0.0.1:0", *more]
        self.service = Service(program, words)
        self.service.has(r"page .*")
        line = [it for it in self.service.lines if it.startswith("page ")][0]
        self.port = int(line.rsplit(":", 1)[1])

    def connect(self):
        return socket.create_connection(("127.0.0.1", self.port), within(5))

    def ask(self, request, stream=None):
        """The status, the fields and the body of the answer to a request; None where none came."""
        with stream or self.connect() as it:
            it.settimeout(within(5))
            it.sendall(request)
            return answer_of(it)

    def get(self, path, method="GET", host="127.0.0.1", more=""):
        return self.ask(f"{method} {path} HTTP/1.1\r\nHost: {host}\r\nConnection: close\r\n{more}\r\n".encode())

    def history(self, series=(), events=0):
        """The last hour of some series, and the lines after a number."""
        names = ",".join(urllib.parse.quote(it, safe="") for it in series)
        status, _, body = self.get(f"/history.json?series={names}&events={events}")
        return json.loads(body) if status == 200 else {"series": {}, "events": []}

    def numbers(self):
        """The lines of /metrics that are numbers."""
        status, fields, body = self.get("/metrics")
        return [line for line in body.decode().split("\n") if line and not line.startswith("#")]

    def end(self):
        self.service.end()
        self.device.gone()


def answer_of(stream):
    text = b""
    try:
        while piece := stream.recv(65536):
            text += piece
    except OSError:
        pass
    if not text:
        return None
    head, _, body = text.partition(b"\r\n\r\n")
    lines = head.decode().split("\r\n")
    return int(lines[0].split()[1]), dict(line.lower().split(": ", 1) for line in lines[1:]), body


def play_numbers(counts, program, folder):
    """The numbers of a service, and its status, as they are by now."""
    window = Window(program, folder, "numbers")
    client = Client(window.service.port())
    counts.note("a client writes", client.write(LIMIT, 30)[0] == 6)
    wanted = 'sunsite_tag_value{tag="lim1",unit="% WMax"} 30'
    counts.note("what the program stored", until(lambda: wanted in window.numbers(), True), window.numbers())
    until(lambda: {'sunsite_tag_value{tag="w1",unit="W"} 1500', 'sunsite_alarms{kind="output_unwritten"} 0'} <= set(window.numbers()), True)
    numbers = window.numbers()
    value = lambda name: [line.rsplit(" ", 1)[1] for line in numbers if line.startswith(name)]
    named = [line for line in numbers if line.startswith("sunsite_info{") and line.endswith(f',name="{NAME}"}} 1')]
    counts.note("what the site is called", len(named) == 1, numbers)
    counts.note("scans", int(value("sunsite_scans_total")[0]) > 0, numbers)
    counts.note("the period", value("sunsite_period_seconds") == ["0.100"], numbers)
    counts.note("no line was left out", value("sunsite_lines_left_out_total") == ["0"], numbers)
    counts.note("how long a round takes", 0 <= float(value("sunsite_round_duration_seconds")[0]) <= within(0.1), numbers)
    counts.note("the budget", value("sunsite_program_steps") <= value("sunsite_program_budget_steps") == ["3"], numbers)
    counts.note("a device by its name, letter by letter", 'sunsite_device_up{device="in\\"v\\\\1",number="0"} 1' in numbers, numbers)
    counts.note("an input", 'sunsite_tag_value{tag="w1",unit="W"} 1500' in numbers, numbers)
    counts.note("for how long a tag is set", value('sunsite_set_age_seconds{tag="target"}')[0] in ("0", "1", "2"), numbers)
    counts.note("a client is there", value("sunsite_clients") == ["1"], numbers)
    counts.note("no alarm", {line for line in numbers if line.startswith("sunsite_alarms") and not line.endswith(" 0")} == set() and len(value("sunsite_alarms")) == 13, numbers)
    when = float(value("sunsite_last_scan_time_seconds")[0])
    counts.note("when it scanned", abs(time.time() - when) < within(5), (when, time.time()))
    counts.note("each line is a number", all(re.fullmatch(r'sunsite_\w+(\{(\w+="([^"\\\n]|\\["\\])*",?)+\})? -?[\d.]+', line) for line in numbers), numbers)
    status, fields, body = window.get("/status.json")
    counts.note("the status", (status, fields["content-type"]) == (200, "application/json") and json.loads(body)["tags"]["lim1"]["value"] == 30, body)
    window.device.silent = True
    lost = 'sunsite_device_up{device="in\\"v\\\\1",number="0"} 0'
    counts.note("a lost device", until(lambda: lost in window.numbers(), True, 8), window.numbers())
    counts.note("has no stale number", until(lambda: not any('value{tag="w1"}' in line for line in window.numbers()), True), window.numbers())
    counts.note("but its cause", 'sunsite_tag_missing{tag="w1",cause="NoBlock"} 1' in window.numbers(), window.numbers())
    counts.note("and an alarm", 'sunsite_alarms{kind="device_lost"} 1' in window.numbers(), window.numbers())
    window.end()


def play_requests(counts, program, folder):
    """What is answered how."""
    window = Window(program, folder, "requests", "--page-host", "plant.example")
    for what, asked, wanted in (
        ("a path that isn't there", {"path": "/nothing"}, 404),
        ("a path above", {"path": "/../etc/passwd"}, 404),
        ("another method", {"path": "/metrics", "method": "PUT"}, 405),
        ("a body", {"path": "/metrics", "method": "POST", "more": "Content-Length: 3\r\n"}, 413),
        ("another host", {"path": "/metrics", "host": "evil.example"}, 421),
        ("no host", {"path": "/metrics", "host": ""}, 421),
        ("a name that it has", {"path": "/metrics", "host": "PLANT.example:8080"}, 200),
        ("another address", {"path": "/metrics", "host": "192.0.2.7:8080"}, 200),
        ("an address of IPv6", {"path": "/metrics", "host": "[::1]:8080"}, 200),
        ("a name that begins as an address", {"path": "/metrics", "host": "127.0.0.1.evil.example"}, 421),
        ("a target of another host", {"path": "http://evil.example/metrics"}, 421),
        ("a long head", {"path": "/metrics", "more": "X: " + "x" * 9000 + "\r\n"}, 431),
        ("a long path", {"path": "/" + "x" * 9000}, 414),
    ):
        answer = window.get(**asked)
        counts.note(what, answer is not None and answer[0] == wanted, answer)
    counts.note("noise", window.ask(b"\x00\x01\x02\r\n\r\n")[0] == 400)
    counts.note("which methods there are", window.get("/metrics", "DELETE")[1].get("allow") == "get, head")
    status, fields, body = window.get("/status.json", "HEAD")
    counts.note("the head alone", status == 200 and int(fields["content-length"]) > 500 and body == b"", (status, fields, body))
    policy = ("no-store", "nosniff", "no-referrer", "default-src 'none'; frame-ancestors 'none'")
    counts.note("nobody keeps or frames it", tuple(fields.get(it) for it in ("cache-control", "x-content-type-options", "referrer-policy", "content-security-policy")) == policy, fields)
    window.end()


def hash_of(body, tag):
    """The hash of the text of the one element of this name, as a policy has it."""
    (text,) = re.findall(rf"<{tag}>(.*?)</{tag}>".encode(), body, re.DOTALL)
    return f"'sha256-{base64.b64encode(hashlib.sha256(text).digest()).decode()}'"


def play_page(counts, program, folder):
    """The page, and the policy by which a browser runs its own style and script alone."""
    window = Window(program, folder, "page")
    status, fields, body = window.get("/")
    counts.note("the page", (status, fields.get("content-type")) == (200, "text/html; charset=utf-8"), (status, fields))
    counts.note("is that of the repository", body.decode() == text_of(f"{TOP}/page/index.html"), len(body))
    # (the fields are in small letters here)
    policy = dict(it.split(" ", 1) for it in fields["content-security-policy"].split("; "))
    for tag in ("style", "script"):
        counts.note(f"the hash of its {tag}", policy.get(f"{tag}-src") == hash_of(body, tag).lower(), (policy, hash_of(body, tag)))
    counts.note("nothing else runs", policy["default-src"] == "'none'" and policy["require-trusted-types-for"] == "'script'", policy)
    wanted = ("no-store", "nosniff", "no-referrer", "same-origin", "same-origin")
    names = ("cache-control", "x-content-type-options", "referrer-policy", "cross-origin-resource-policy", "cross-origin-opener-policy")
    counts.note("nobody keeps it, or shows it elsewhere", tuple(fields.get(it) for it in names) == wanted, fields)
    status, fields, none = window.get("/", "HEAD")
    counts.note("its head alone", (status, int(fields["content-length"]), none) == (200, len(body), b""), (status, fields))
    counts.note("no icon", window.get("/favicon.ico")[0] == 404)
    counts.note("a query changes nothing", window.get("/?a=b")[2] == body)
    window.end()


def play_site(counts, program, folder):
    """What doesn't change while a program runs, and another program by --reload."""
    window = Window(program, folder, "site", "--reload", "--timeout", "40", "--write-from", "127.0.0.0/8")
    status, fields, body = window.get("/site.json")
    counts.note("the site", (status, fields["content-type"]) == (200, "application/json"), (status, fields))
    site = json.loads(body)
    counts.note("how it is served", (site["period"], site["timeout"], site["clients"], site["write_from"], site["unit"]) == (100, 40, 32, ["127.0.0.0/8"], 1), site)
    counts.note("where", site["listen"] == f"127.0.0.1:{window.service.port()}", site["listen"])
    counts.note("what is kept", (site["keeps"], site["reloads"]) == (False, True), site)
    counts.note("its name", site["name"] == NAME, site["name"])
    wanted = [{"name": "in\"v\\1", "unit": 1, "rated": 5000, "rewrite": 0}]
    counts.note("its device, letter by letter", site["devices"] == wanted, site["devices"])
    lim1 = {"number": 1, "access": "out", "device": 0, "model": 123, "point": "WMaxLimPct", "unit": "% WMax", "type": "INT", "exponent": 0, "low": 0, "high": 100}
    counts.note("a tag", site["tags"]["lim1"] == lim1, site["tags"])
    target = site["tags"]["target"]
    counts.note("a tag that clients set", (target["default"], target["lapse"], target["access"], "device" in target) == (50, 60, "set", False), target)
    counts.note("what clients read", site["served"] == [{"model": 123, "point": "WMaxLimPct", "unit": "% WMax", "tag": "target"}], site["served"])
    shown = site["program"]
    counts.note("the program", (shown["file"], shown["budget"], shown["longest"], shown["variables"]) == ("site.il", 3, [5, 6, 7], {}), shown)
    counts.note("its lines", [it["text"] for it in shown["lines"]] == PROGRAM.splitlines(), shown["lines"])
    line = {"text": "  LD target", "code": [[0, "LDT", ""]], "uses": ["target"], "proved": ["INT", 0, 100]}
    counts.note("what is known at a line", shown["lines"][4] == line, shown["lines"][4])
    counts.note("the same once more", window.get("/site.json")[2] == body)
    status, fields, none = window.get("/site.json", "HEAD")
    counts.note("its head alone", (status, int(fields["content-length"]), none) == (200, len(body), b""), (status, fields))
    put(folder, "site.il", PROGRAM.replace("  ST lim1", "  MIN 40\n  ST lim1"))
    counts.note("another program is taken", window.service.has(r".*program taken budget 6", 10), window.service.lines[-3:])
    shown = json.loads(window.get("/site.json")[2])["program"]
    counts.note("and shown", (shown["budget"], shown["lines"][5]["text"], shown["lines"][5].get("proved")) == (6, "  MIN 40", ["INT", 0, 40]), shown)
    window.end()


def play_pieces(counts, program, folder):
    """Requests in pieces and in a row, one who is slow, and more than there are places for."""
    window = Window(program, folder, "pieces")
    request = b"GET /metrics HTTP/1.1\r\nHost: 127.0.0.1\r\n\r\n"
    last = request.replace(b"\r\n\r\n", b"\r\nConnection: close\r\n\r\n")
    with window.connect() as stream:
        for byte in last:
            stream.sendall(bytes([byte]))
            time.sleep(0.002)
        answer = answer_of(stream)
    counts.note("byte by byte", answer is not None and answer[0] == 200, answer)
    with window.connect() as stream:
        stream.sendall(request + request + last)
        text = b""
        while piece := stream.recv(65536):
            text += piece
    counts.note("three in a row", text.count(b"HTTP/1.1 200 OK") == 3, text[:200])
    streams = [window.connect() for _ in range(16)]
    counts.note("all places are taken", until(lambda: window.get("/metrics")[0], 503) == 503)
    began = time.monotonic()
    streams[0].sendall(b"GET /metrics")
    streams[0].settimeout(within(15))
    counts.note("one who doesn't end his request is closed", streams[0].recv(1) == b"" and 8 < time.monotonic() - began < within(14), time.monotonic() - began)
    counts.note("his place is free", until(lambda: window.get("/metrics")[0], 200) == 200)
    for it in streams:
        it.close()
    client = Client(window.service.port())
    counts.note("clients are served as before", client.read(LIMIT) is not None)
    window.end()


def fresh_step(window):
    """How many steps of ten seconds there are, once one has just begun."""
    count = lambda: len(window.history(["steps"])["series"]["steps"])
    before = count()
    until(lambda: count() > before, True, 12)
    return count()


def play_hour(counts, program, folder):
    """The last hour: what a tag was within ten seconds, where it had no value, and which lines were told."""
    window = Window(program, folder, "hour", tags=MORE_TAGS + SUM)
    client = Client(window.service.port())
    wanted = ["tag:w1", "tag:target", "tag:lim1", "served:103 W", "steps"]
    last = lambda: {name: points[-1] for name, points in window.history(wanted)["series"].items()}
    counts.note("a default is no value", until(lambda: last()["tag:lim1"], 50) == 50 and last()["tag:target"] is None, last())
    registers, status = window.device.units[1], lambda: json.loads(window.get("/status.json")[2])
    place = [it for it, word in registers.items() if word == 1500][0]
    client.write(LIMIT, 80)
    until(lambda: status()["outputs"]["lim1"]["value"], 80)
    steps = fresh_step(window)
    for watts, percent in ((2000, 80), (700, 30), (1500, 60)):
        registers[place] = watts
        client.write(LIMIT, percent)
        until(lambda: (status()["tags"]["w1"].get("value"), status()["outputs"]["lim1"]["value"]), (watts, percent))
    now = last()
    counts.note("one step has the least and the greatest", len(window.history(wanted)["series"]["steps"]) == steps and (now["tag:w1"], now["tag:target"]) == ([700, 2000], [30, 80]), now)
    counts.note("what the program stored", now["tag:lim1"] == [30, 80], now)
    counts.note("a sum", now["served:103 W"] == [1400, 4000], now)
    counts.note("steps are one number", now["steps"] == 3, now)
    answer = window.history(wanted)
    counts.note("each series has a point for each step", {len(it) for it in answer["series"].values()} == {steps} and (answer["step"], answer["count"]) == (10, 360), answer)
    counts.note("when it is", re.fullmatch(r"20\d\d-\d\d-\d\dT\d\d:\d\d:\d\dZ", answer["time"]) is not None, answer["time"])
    texts = [it["text"] for it in answer["events"]]
    counts.note("lines are told in order", [it["n"] for it in answer["events"]] == list(range(1, answer["told"] + 1)), answer["events"])
    counts.note("without their time, letter by letter", 'device in"v\\1 found 1 103 123' in texts and any(it.startswith("set target 80 was unset by") for it in texts), texts)
    counts.note("as the status counts them", status()["events"] == window.history()["told"])
    later = window.history(events=answer["told"] - 2)
    counts.note("those after a number", later["events"] == answer["events"][-2:] and later["series"] == {}, later)
    window.device.silent = True
    some = lambda it: (it["tag:w1"], it["served:103 W"], it["tag:lim1"])
    counts.note("a step without a value", until(lambda: some(last()), (None, None, 60), 40) == (None, None, 60), last())
    counts.note("what was before it stays", [700, 2000] in window.history(["tag:w1"])["series"]["tag:w1"])
    window.end()


def play_asked_hour(counts, program, folder):
    """Which series are answered, and of how many there is a history."""
    window = Window(program, folder, "asked", tags=MORE_TAGS + SUM)
    names = [f"tag:w{n}" for n in range(1, 18)]
    counts.note("sixteen at most", list(window.history(names)["series"]) == names[:16])
    counts.note("unknown ones are left out", list(window.history(["nothing", "tag:w2", "tag:", "", "tag:w2"])["series"]) == ["tag:w2"])
    plain = window.get("/history.json?other=1&events=many&series=steps,served:103+W")
    counts.note("nothing else is looked at", plain[0] == 200 and set(json.loads(plain[2])["series"]) == {"steps", "served:103 W"}, plain)
    counts.note("bytes that are no text", window.get("/history.json?series=%ff%00,%22")[0] == 200)
    head = window.get("/history.json?series=steps", "HEAD")
    counts.note("the head alone", head[0] == 200 and int(head[1]["content-length"]) > 50 and head[2] == b"", head)
    counts.note("another host", window.get("/history.json", host="evil.example")[0] == 421)
    window.end()
    small = Window(program, folder, "small", "--page-memory", "200000", tags=MORE_TAGS + SUM)
    every = [*names, "tag:lim1", "tag:target", "steps", "served:103 W"]
    known = [it for it in every if small.history([it])["series"]]
    counts.note("the first of the file have a history", known == [*names[:5], "tag:lim1", "tag:target", "steps"], known)
    small.end()
    said = small.service.process.stderr.read()
    wanted = "'--page' shows no history of the last 16 of 23 tags and sums: '--page-memory 336000' has room for all"
    counts.note("and it is said that others have none", wanted in said, said)


PLAYS = (play_numbers, play_requests, play_page, play_site, play_pieces, play_hour, play_asked_hour)

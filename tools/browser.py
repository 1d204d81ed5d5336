"""Chromium without a window, driven over its debugging pipe (Chrome DevTools Protocol): no port, no library.

It is the program `chromium` on the path, or the one that the environment names in CHROMIUM.
"""

import base64
import json
import os
import select
import shutil
import subprocess
import tempfile
import time

from serve_parts import within

LOOKS = ("Page", "Runtime", "Log", "Accessibility", "Network")
# (its sandbox wants more of the system than a container gives)
WORDS = (
    "--headless=new", "--no-sandbox", "--disable-gpu", "--hide-scrollbars", "--no-first-run", "--disable-dev-shm-usage",
    "--disable-background-networking", "--remote-debugging-pipe", "--lang=en-GB",
)
KEYS = {"Tab": 9, "Enter": 13, "Escape": 27, " ": 32, "ArrowLeft": 37, "ArrowRight": 39}


def chromium():
    """The path of the program; None where there is none."""
    return os.environ.get("CHROMIUM") or shutil.which("chromium")


class Browser:
    """A browser with one page, and what it logged: kind, where from, text."""

    def __init__(self):
        ours_read, theirs_write = os.pipe()
        theirs_read, ours_write = os.pipe()
        self.folder = tempfile.TemporaryDirectory(prefix="try-page-", ignore_cleanup_errors=True)
        self.process = subprocess.Popen(
            [chromium(), *WORDS, f"--user-data-dir={self.folder.name}", "about:blank"],
            preexec_fn=lambda: pass_on(theirs_read, theirs_write), close_fds=False, stdout=subprocess.DEVNULL, stderr=subprocess.DEVNULL,
        )
        os.close(theirs_read)
        os.close(theirs_write)
        self.reads, self.writes, self.number, self.bytes, self.session, self.log = ours_read, ours_write, 0, b"", None, []
        page = [it for it in self.call("Target.getTargets")["targetInfos"] if it["type"] == "page"][0]
        self.session = self.call("Target.attachToTarget", targetId=page["targetId"], flatten=True)["sessionId"]
        for domain in LOOKS:
            self.call(f"{domain}.enable")

    def send(self, method, **given):
        self.number += 1
        message = {"id": self.number, "method": method, "params": given}
        if self.session:
            message["sessionId"] = self.session
        os.write(self.writes, json.dumps(message).encode() + b"\0")
        return self.number

    def call(self, method, **given):
        """What comes of a call."""
        number, end = self.send(method, **given), time.monotonic() + within(60)
        while time.monotonic() < end:
            message = self.take(1)
            if message and message.get("id") == number:
                if "error" in message:
                    raise RuntimeError(f"{method}: {message['error']['message']}")
                return message["result"]
        raise TimeoutError(method)

    def take(self, seconds):
        """The next message; None where none comes."""
        while b"\0" not in self.bytes:
            if not select.select([self.reads], [], [], seconds)[0]:
                return None
            piece = os.read(self.reads, 1 << 20)
            if not piece:
                raise ConnectionError("the browser ended")
            self.bytes += piece
        text, _, self.bytes = self.bytes.partition(b"\0")
        message = json.loads(text)
        self.note(message.get("method"), message.get("params"))
        return message

    def note(self, method, told):
        if method == "Log.entryAdded":
            entry = told["entry"]
            self.log.append((entry["level"], entry.get("url", ""), entry["text"]))
        if method == "Runtime.exceptionThrown":
            details = told["exceptionDetails"]
            self.log.append(("exception", details.get("url", ""), details.get("exception", {}).get("description", details["text"])))
        if method == "Runtime.consoleAPICalled":
            self.log.append(("console", "", str([it.get("value") for it in told["args"]])))
        if method == "Page.javascriptDialogOpening":
            self.log.append(("dialog", "", told["message"]))
            self.send("Page.handleJavaScriptDialog", accept=True)

    def js(self, text):
        """What an expression is on the page."""
        result = self.call("Runtime.evaluate", expression=text, returnByValue=True, awaitPromise=True)
        if "exceptionDetails" in result:
            raise RuntimeError(result["exceptionDetails"].get("exception", {}).get("description"))
        return result["result"].get("value")

    def pause(self, seconds):
        end = time.monotonic() + seconds
        while (left := end - time.monotonic()) > 0:
            self.take(left)

    def until(self, text, seconds=10):
        """Whether an expression holds, or comes to."""
        text = f"(() => {{ try {{ return !!({text}) }} catch {{ return false }} }})()"
        end = time.monotonic() + within(seconds)
        while time.monotonic() < end:
            if self.js(text):
                return True
            self.pause(0.2)
        return False

    def open(self, address, width=1280, height=900, dark=False):
        """Opens an address as on a screen of this size, where little is to move."""
        features = [{"name": "prefers-color-scheme", "value": "dark" if dark else "light"}, {"name": "prefers-reduced-motion", "value": "reduce"}]
        self.call("Emulation.setDeviceMetricsOverride", width=width, height=height, deviceScaleFactor=1, mobile=width < 600)
        self.call("Emulation.setEmulatedMedia", features=features)
        self.call("Page.navigate", url=address)

    def picture(self, path):
        """Keeps what is seen as a picture (PNG)."""
        seen = self.call("Page.captureScreenshot", format="png")["data"]
        with open(path, "wb") as it:
            it.write(base64.b64decode(seen))

    def key(self, key):
        for kind in ("keyDown", "keyUp"):
            text = "\r" if key == "Enter" and kind == "keyDown" else ""
            self.call("Input.dispatchKeyEvent", type=kind, key=key, code=key, windowsVirtualKeyCode=KEYS[key], text=text)

    def names(self, role):
        """The names of all with a role, as a screen reader has them."""
        nodes = self.call("Accessibility.getFullAXTree")["nodes"]
        return [it.get("name", {}).get("value", "") for it in nodes if it.get("role", {}).get("value") == role and not it.get("ignored")]

    def end(self):
        self.process.kill()
        self.process.wait()
        os.close(self.reads)
        os.close(self.writes)
        self.folder.cleanup()


def pass_on(reads, writes):
    """In the browser's process: 3 is what it reads, 4 what it writes."""
    os.dup2(reads, 103)
    os.dup2(writes, 104)
    os.dup2(103, 3)
    os.dup2(104, 4)

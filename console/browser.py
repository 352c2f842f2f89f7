"""Headless Chromium, driven by the DevTools protocol over a pipe, for check.py."""

import base64
import fcntl
import json
import os
import shutil
import subprocess
import sys
import tempfile
import time
from pathlib import Path

CHROMIUM = ("chromium", "chromium-browser", "google-chrome")
PAGE = Path(__file__).resolve().parent / "index.html"
KEYS = {"Tab": 9, "Enter": 13, "Escape": 27}


class Browser:
    """One page. What goes wrong on it is kept in `faults`, its pictures in a folder."""

    def __init__(self, program, pictures):
        self.pictures = pictures
        self.folder = tempfile.mkdtemp(prefix="console-")
        commands, answers = os.pipe(), os.pipe()
        kept = [fcntl.fcntl(end, fcntl.F_DUPFD, 20) for end in (commands[0], answers[1])]

        def place():
            os.dup2(kept[0], 3)
            os.dup2(kept[1], 4)

        self.process = subprocess.Popen(
            [program, "--headless", "--no-sandbox", "--disable-gpu", "--hide-scrollbars", "--remote-debugging-pipe",
             f"--user-data-dir={self.folder}", "--no-first-run", "about:blank"],
            pass_fds=(3, 4), preexec_fn=place, stdout=subprocess.DEVNULL, stderr=subprocess.DEVNULL)
        for end in (*kept, commands[0], answers[1]):
            os.close(end)
        self.writer, self.reader = os.fdopen(commands[1], "wb", 0), os.fdopen(answers[0], "rb", 0)
        self.rest, self.number, self.session, self.faults = b"", 0, None, []
        target = self.command("Target.createTarget", url="about:blank")["targetId"]
        self.session = self.command("Target.attachToTarget", targetId=target, flatten=True)["sessionId"]
        for domain in ("Page", "Runtime", "Log", "DOM"):
            self.command(f"{domain}.enable")

    def message(self):
        while b"\0" not in self.rest:
            data = os.read(self.reader.fileno(), 1 << 16)
            if not data:
                sys.exit("Chromium has ended")
            self.rest += data
        text, _, self.rest = self.rest.partition(b"\0")
        return json.loads(text)

    def command(self, method, **parameters):
        self.number += 1
        call = {"id": self.number, "method": method, "params": parameters}
        if self.session:
            call["sessionId"] = self.session
        self.writer.write(json.dumps(call).encode() + b"\0")
        while True:
            message = self.message()
            if message.get("id") == self.number:
                if "error" in message:
                    raise RuntimeError(f"{method}: {message['error']}")
                return message["result"]
            self.note(message)

    def note(self, message):
        """Keeps exceptions and errors of the page, but not those of connections that fail."""
        if message.get("method") == "Runtime.exceptionThrown":
            self.faults.append(json.dumps(message["params"]["exceptionDetails"])[:400])
        if message.get("method") == "Log.entryAdded":
            entry = message["params"]["entry"]
            if entry["level"] == "error" and entry["source"] != "network" and "WebSocket" not in entry["text"]:
                self.faults.append(entry["text"])

    def run(self, expression):
        result = self.command("Runtime.evaluate", expression=expression, returnByValue=True, awaitPromise=True)
        if "exceptionDetails" in result:
            raise RuntimeError(f"{expression}: {json.dumps(result['exceptionDetails'])[:600]}")
        return result["result"].get("value")

    def wait(self, expression, seconds=10):
        end = time.monotonic() + seconds
        while time.monotonic() < end:
            if self.run(expression):
                return True
            time.sleep(0.05)
        return False

    def size(self, width, height, dark=False):
        self.command("Emulation.setDeviceMetricsOverride", width=width, height=height, deviceScaleFactor=1, mobile=False)
        value = "dark" if dark else "light"
        self.command("Emulation.setEmulatedMedia", features=[{"name": "prefers-color-scheme", "value": value}])

    def load(self, query, zone="UTC"):
        """Opens the page anew."""
        self.command("Emulation.setTimezoneOverride", timezoneId=zone)
        self.command("Page.navigate", url="about:blank")
        self.command("Page.navigate", url=f"{PAGE.as_uri()}?{query}")
        if not self.wait("document.readyState === 'complete' && document.getElementById('zone')?.textContent !== ''"):
            raise RuntimeError(f"the page has not started: {self.faults}")

    def open(self, server, operator, zone="UTC"):
        self.load(f"server={server}&operator={operator}", zone)
        self.run("document.getElementById('open').click()")

    def shot(self, name, whole=True):
        time.sleep(0.4)
        picture = self.command("Page.captureScreenshot", format="png", captureBeyondViewport=whole)
        (self.pictures / f"{name}.png").write_bytes(base64.b64decode(picture["data"]))

    def press(self, key, text=""):
        self.command("Input.dispatchKeyEvent", type="keyDown", key=key, code=key, text=text,
                     windowsVirtualKeyCode=KEYS.get(key, 0))
        self.command("Input.dispatchKeyEvent", type="keyUp", key=key, code=key)

    def close(self):
        self.session = None
        try:
            self.command("Browser.close")
        except (RuntimeError, OSError, SystemExit):
            pass
        try:
            self.process.wait(10)
        except subprocess.TimeoutExpired:
            self.process.kill()
        shutil.rmtree(self.folder, ignore_errors=True)

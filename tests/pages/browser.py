"""A headless Chromium, driven through a pipe by the DevTools protocol."""

from __future__ import annotations

import json
import os
import re
import shutil
import subprocess
import time
from pathlib import Path

NAMES = ("chromium", "chromium-browser", "google-chrome")
FLAGS = ["--headless=new", "--disable-gpu", "--disable-dev-shm-usage", "--remote-debugging-pipe"]
# Chromium has no sandbox for root.
FLAGS += ["--no-sandbox"] if os.geteuid() == 0 else []


def find() -> str | None:
    """The path of Chromium, where there is one."""
    return next(filter(None, map(shutil.which, NAMES)), None)


class BrowserError(Exception):
    """The browser ended, or answered with an error."""


class Browser:
    """A headless Chromium, and the events of the page that it shows."""

    def __init__(self, path: str, profile: Path) -> None:
        to_read, self.commands = os.pipe()
        self.answers, to_write = os.pipe()
        # The browser has its pipe at 3 and 4.
        shell = ["bash", "-c", f'exec "$@" 3<&{to_read} 4>&{to_write}', "browser"]
        self.process = subprocess.Popen(
            [*shell, path, *FLAGS, f"--user-data-dir={profile}"],
            pass_fds=(to_read, to_write), stdout=subprocess.DEVNULL, stderr=subprocess.DEVNULL,
        )
        os.close(to_read)
        os.close(to_write)
        self.rest, self.count = b"", 0
        self.session: str | None = None
        self.events: list[dict] = []

    def message(self) -> dict:
        """The next message of the browser."""
        while b"\0" not in self.rest:
            more = os.read(self.answers, 1 << 20)
            if not more:
                raise BrowserError("the browser ended")
            self.rest += more
        text, self.rest = self.rest.split(b"\0", 1)
        return json.loads(text)

    def call(self, method: str, **parameters) -> dict:
        """Returns what the browser answers, and keeps the events that come before."""
        self.count += 1
        request = {"id": self.count, "method": method, "params": parameters}
        if self.session:
            request["sessionId"] = self.session
        os.write(self.commands, json.dumps(request).encode() + b"\0")
        while True:
            message = self.message()
            if message.get("id") == self.count:
                if "error" in message:
                    raise BrowserError(f"{method}: {message['error']}")
                return message["result"]
            self.events.append(message)

    def begin(self) -> None:
        """Makes a page, and asks for its events."""
        target = self.call("Target.createTarget", url="about:blank")["targetId"]
        self.session = self.call("Target.attachToTarget", targetId=target, flatten=True)["sessionId"]
        for domain in ("Page", "Runtime", "Log", "Network"):
            self.call(f"{domain}.enable")

    def end(self) -> None:
        """Closes the browser."""
        try:
            self.call("Browser.close")
            self.process.wait(timeout=30)
        except (BrowserError, OSError, subprocess.TimeoutExpired):
            self.process.kill()
            self.process.wait()
        os.close(self.commands)
        os.close(self.answers)

    def open(self, path: Path) -> None:
        """Shows a page, and waits until it has loaded."""
        self.events = []
        self.call("Page.navigate", url=f"file://{path}")
        while not any(event.get("method") == "Page.loadEventFired" for event in self.events):
            self.events.append(self.message())

    def measure(self, script: str, width: int, scheme: str, media: str) -> dict:
        """What a script returns on a screen of this width, in this colour scheme and medium."""
        self.call("Emulation.setDeviceMetricsOverride", width=width, height=800, deviceScaleFactor=1, mobile=False)
        feature = {"name": "prefers-color-scheme", "value": scheme}
        self.call("Emulation.setEmulatedMedia", media=media, features=[feature])
        return self.call("Runtime.evaluate", expression=script, returnByValue=True)["result"]["value"]

    def evaluate(self, script: str):
        """What a script returns, or what its promise comes to."""
        answer = self.call("Runtime.evaluate", expression=script, returnByValue=True, awaitPromise=True)
        return answer["result"].get("value")

    def wait_for(self, script: str, pattern: str, seconds: float = 60) -> str:
        """What a script returns once it has this pattern."""
        end = time.monotonic() + seconds
        while not re.search(pattern, text := str(self.evaluate(script))):
            if time.monotonic() > end:
                raise BrowserError(f"{script} is {text!r}, and has no {pattern!r}")
            time.sleep(0.05)
        return text

    def choose(self, selector: str, path: Path) -> None:
        """Chooses a file as a reader does by the dialogue of an input."""
        root = self.call("DOM.getDocument")["root"]["nodeId"]
        node = self.call("DOM.querySelector", nodeId=root, selector=selector)["nodeId"]
        self.call("DOM.setFileInputFiles", nodeId=node, files=[str(path)])

    def drop(self, path: Path) -> None:
        """Drops a file on the page."""
        data = {"items": [], "files": [str(path)], "dragOperationsMask": 1}
        for kind in ("dragEnter", "dragOver", "drop"):
            self.call("Input.dispatchDragEvent", type=kind, x=100, y=100, data=data)

    def faults(self) -> list[str]:
        """What a whole page has none of: errors, words on the console, and other things to load."""
        found = []
        for event in self.events:
            method, parameters = event.get("method"), event.get("params", {})
            if method in ("Runtime.exceptionThrown", "Runtime.consoleAPICalled", "Log.entryAdded"):
                found.append(f"{method}: {parameters}")
            if method == "Network.requestWillBeSent" and parameters["type"] != "Document":
                found.append(f"it loads {parameters['request']['url']}")
        return found

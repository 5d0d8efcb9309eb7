"""Headless Chromium, driven over its DevTools protocol by a pair of pipes. For scripts/check_viewer.py."""
from __future__ import annotations

import base64
import fcntl
import json
import os
import shutil
import subprocess
import tempfile
import time
from pathlib import Path
from typing import Any

NAMES = ("chromium", "chromium-browser", "google-chrome")
MOST_SECONDS = 60
KEY_CODES = {"ArrowRight": 39, "ArrowLeft": 37, "Home": 36, "End": 35, " ": 32}


class BrowserFault(Exception):
    """The browser is missing or does not answer."""


def find_browser(wanted: str | None) -> str:
    for name in [wanted] if wanted else NAMES:
        path = shutil.which(name)
        if path:
            return path
    raise BrowserFault(f"there is no {wanted or ' or '.join(NAMES)} on the path: apt-get install chromium")


class Browser:
    """One browser with one page."""

    def __init__(self, path: str) -> None:
        self.folder = tempfile.TemporaryDirectory(prefix="check_viewer.", ignore_cleanup_errors=True)
        read_there, self.write_here = os.pipe()
        self.read_here, write_there = os.pipe()
        # high numbers, so that neither of the two that the browser wants is overwritten before it is copied
        given = [fcntl.fcntl(end, fcntl.F_DUPFD, 20) for end in (read_there, write_there)]

        def hand_over() -> None:
            os.dup2(given[0], 3)
            os.dup2(given[1], 4)

        words = [
            path, "--headless=new", "--no-sandbox", "--disable-gpu", "--hide-scrollbars", "--remote-debugging-pipe",
            "--no-first-run", "--disable-dev-shm-usage", "--disable-background-networking", "--disable-sync",
            f"--user-data-dir={self.folder.name}", "about:blank",
        ]  # fmt: skip
        self.run = subprocess.Popen(
            words, stdin=subprocess.DEVNULL, stdout=subprocess.DEVNULL, stderr=subprocess.DEVNULL,
            close_fds=False, preexec_fn=hand_over,
        )  # fmt: skip
        for end in (read_there, write_there, *given):
            os.close(end)
        self.rest = b""
        self.number = 0
        self.events: list[dict[str, Any]] = []
        self.session = ""
        try:
            self.attach()
        except BrowserFault:
            self.close()
            raise

    def attach(self) -> None:
        """Turns to the page that the browser opens with."""
        pages: list[dict[str, Any]] = []
        end = time.monotonic() + MOST_SECONDS
        while not pages:
            pages = [each for each in self.call("Target.getTargets")["targetInfos"] if each["type"] == "page"]
            if time.monotonic() > end:
                raise BrowserFault("the browser opens no page")
        attached = self.call("Target.attachToTarget", targetId=pages[0]["targetId"], flatten=True)
        self.session = attached["sessionId"]
        for domain in ("Page", "Runtime", "Log", "Network"):
            self.call(f"{domain}.enable")

    def message(self) -> dict[str, Any]:
        os.set_blocking(self.read_here, False)
        end = time.monotonic() + MOST_SECONDS
        while b"\0" not in self.rest:
            try:
                piece = os.read(self.read_here, 1 << 20)
            except BlockingIOError:
                if time.monotonic() > end:
                    raise BrowserFault("the browser does not answer") from None
                time.sleep(0.004)
                continue
            if not piece:
                raise BrowserFault("the browser has ended")
            self.rest += piece
        text, self.rest = self.rest.split(b"\0", 1)
        found: dict[str, Any] = json.loads(text)
        return found

    def call(self, method: str, **values: Any) -> dict[str, Any]:
        self.number += 1
        message: dict[str, Any] = {"id": self.number, "method": method, "params": values}
        if self.session:
            message["sessionId"] = self.session
        data = json.dumps(message).encode() + b"\0"
        try:
            while data:
                data = data[os.write(self.write_here, data) :]
        except BrokenPipeError as fault:
            raise BrowserFault("the browser has ended") from fault
        while True:
            answer = self.message()
            if answer.get("id") == self.number:
                if "error" in answer:
                    raise BrowserFault(f"{method}: {answer['error']['message']}")
                found: dict[str, Any] = answer["result"]
                return found
            self.events.append(answer)

    def evaluate(self, expression: str) -> Any:
        answer = self.call("Runtime.evaluate", expression=expression, returnByValue=True, awaitPromise=True)
        if "exceptionDetails" in answer:
            raise BrowserFault(f"{expression}: {answer['exceptionDetails']['text']}")
        return answer["result"].get("value")

    def open(self, address: str) -> None:
        # a page that is open already would only change its step
        self.call("Page.navigate", url="about:blank")
        self.call("Page.navigate", url=address)
        end = time.monotonic() + MOST_SECONDS
        wanted = "document.readyState === 'complete' && location.href !== 'about:blank'"
        while not self.evaluate(wanted):
            if time.monotonic() > end:
                raise BrowserFault(f"{address} is not read to its end")
            time.sleep(0.01)

    def press(self, key: str) -> None:
        """Presses a key and lets it go, as a person does."""
        for kind in ("keyDown", "keyUp"):
            values: dict[str, Any] = {"key": key, "windowsVirtualKeyCode": KEY_CODES[key], "type": kind}
            values["code"] = "Space" if key == " " else key
            if key == " " and kind == "keyDown":
                values["text"] = " "
            self.call("Input.dispatchKeyEvent", **values)

    def resize(self, width: int, height: int) -> None:
        self.call(
            "Emulation.setDeviceMetricsOverride", width=width, height=height, deviceScaleFactor=1, mobile=False
        )

    def prefer(self, scheme: str, motion: str = "no-preference") -> None:
        features = [
            {"name": "prefers-color-scheme", "value": scheme},
            {"name": "prefers-reduced-motion", "value": motion},
        ]
        self.call("Emulation.setEmulatedMedia", features=features)

    def picture(self, out: Path, whole: bool = True) -> None:
        answer = self.call("Page.captureScreenshot", format="png", captureBeyondViewport=whole)
        out.write_bytes(base64.b64decode(answer["data"]))

    def close(self) -> None:
        try:
            self.session = ""
            self.call("Browser.close")
        except (BrowserFault, OSError):
            pass
        try:
            self.run.wait(10)
        except subprocess.TimeoutExpired:
            self.run.kill()
            self.run.wait()
        for end in (self.read_here, self.write_here):
            os.close(end)
        self.folder.cleanup()

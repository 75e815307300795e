"""A browser without a window, driven over a pipe by the DevTools protocol: messages of JSON, each ended by a zero octet."""
import base64
import json
import os
import select
import shutil
import subprocess
import tempfile
import time
from typing import Any, Dict, List, Optional

NAMES = "chromium", "chromium-browser", "google-chrome-stable", "google-chrome"
FLAGS = ["--headless=new", "--remote-debugging-pipe", "--no-first-run", "--no-default-browser-check", "--disable-gpu",
         "--disable-extensions", "--disable-background-networking", "--disable-dev-shm-usage", "--hide-scrollbars",
         "--disable-ipc-flooding-protection"]  # scripts come by the address as fast as they are played


def program() -> Optional[str]:
    """The browser that is installed, if one is."""
    return next(filter(None, map(shutil.which, NAMES)), None)


class Lost(Exception):
    """The browser did not answer, or refused a command."""


class Browser:
    """A browser with one page. It ends with the block."""

    def __init__(self, path: str) -> None:
        self.path = path
        self.number = 0
        self.events: List[dict] = []
        self.session: Optional[str] = None

    def __enter__(self) -> "Browser":
        self.folder = tempfile.mkdtemp(prefix="page-browser-")
        hears, self.says = os.pipe()
        self.hears, says = os.pipe()

        def numbered() -> None:
            os.dup2(hears, 103)
            os.dup2(says, 104)
            os.dup2(103, 3)
            os.dup2(104, 4)

        # as root a browser wants its own walls off
        more = ["--no-sandbox"] if os.geteuid() == 0 else []
        words = [self.path, *FLAGS, *more, f"--user-data-dir={self.folder}", "about:blank"]
        quiet = {"stdin": subprocess.DEVNULL, "stdout": subprocess.DEVNULL, "stderr": subprocess.DEVNULL}
        self.running = subprocess.Popen(words, preexec_fn=numbered, pass_fds=(3, 4), **quiet)
        os.close(hears)
        os.close(says)
        self.left = b""
        found = self.ask("Target.getTargets")["targetInfos"]
        target = next(it["targetId"] for it in found if it["type"] == "page")
        self.session = self.ask("Target.attachToTarget", targetId=target, flatten=True)["sessionId"]
        for it in ("Page", "Runtime", "Network", "Log"):
            self.ask(f"{it}.enable")
        return self

    def __exit__(self, *_: object) -> None:
        self.running.kill()
        self.running.wait()
        os.close(self.says)
        os.close(self.hears)
        shutil.rmtree(self.folder, ignore_errors=True)

    def ask(self, command: str, seconds: float = 30, **parameters: Any) -> dict:
        """Gives a command, and returns its answer; events that come meanwhile are kept."""
        self.number += 1
        message = {"id": self.number, "method": command, "params": parameters}
        if self.session:
            message["sessionId"] = self.session
        data = json.dumps(message).encode() + b"\0"
        while data:
            data = data[os.write(self.says, data):]
        end = time.monotonic() + seconds
        while True:
            answer = self.message(end)
            if answer.get("id") == self.number:
                if "error" in answer:
                    raise Lost(f"{command}: {answer['error']}")
                return answer["result"]
            self.events.append(answer)

    def message(self, end: float) -> dict:
        while b"\0" not in self.left:
            if not select.select([self.hears], [], [], max(0, end - time.monotonic()))[0]:
                raise Lost("the browser does not answer")
            more = os.read(self.hears, 1 << 20)
            if not more:
                raise Lost("the browser has ended")
            self.left += more
        one, _, self.left = self.left.partition(b"\0")
        return json.loads(one)

    def open(self, url: str) -> None:
        self.ask("Page.navigate", url=url)

    def value(self, expression: str, seconds: float = 30) -> Any:
        """What an expression is in the page, once what it promises has come."""
        it = self.ask("Runtime.evaluate", seconds, expression=expression, awaitPromise=True, returnByValue=True)
        if "exceptionDetails" in it:
            raise Lost(f"{expression[:80]}: {it['exceptionDetails'].get('exception', {}).get('description')}")
        return it["result"].get("value")

    def until(self, expression: str, seconds: float = 30) -> float:
        """Waits until an expression holds in the page; how many seconds that took."""
        begin = time.monotonic()
        while True:
            try:
                if self.value(expression):
                    return time.monotonic() - begin
            except Lost:
                if time.monotonic() - begin > seconds:
                    raise
            if time.monotonic() - begin > seconds:
                raise Lost(f"{expression}: not within {seconds} seconds")
            time.sleep(0.02)

    def key(self, name: str, code: int, modifiers: int = 0, text: str = "") -> None:
        more = {"text": text} if text else {}
        keys = {"key": name, "code": name, "windowsVirtualKeyCode": code, "modifiers": modifiers}
        self.ask("Input.dispatchKeyEvent", type="keyDown", **keys, **more)
        self.ask("Input.dispatchKeyEvent", type="keyUp", **keys)

    def size(self, width: int, height: int, is_dark: bool = False, is_phone: bool = False, is_forced: bool = False) -> None:
        """A window of this size; with `is_forced` in the reader's own colours, as a system of high contrast has them."""
        self.ask("Emulation.setDeviceMetricsOverride", width=width, height=height, deviceScaleFactor=1, mobile=is_phone)
        self.ask("Emulation.setTouchEmulationEnabled", enabled=is_phone)
        scheme = {"name": "prefers-color-scheme", "value": "dark" if is_dark else "light"}
        forced = {"name": "forced-colors", "value": "active" if is_forced else "none"}
        self.ask("Emulation.setEmulatedMedia", features=[scheme, forced])

    def shot(self, clip: Optional[dict] = None) -> bytes:
        """A picture of the page, or of a part of it."""
        more = {"clip": {**clip, "scale": 1}} if clip else {}
        return base64.b64decode(self.ask("Page.captureScreenshot", format="png", **more)["data"])

    def picture(self, path: str) -> None:
        with open(path, "wb") as it:
            it.write(self.shot())

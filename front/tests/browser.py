"""A real browser for tests: Chromium, driven by its DevTools protocol over two pipes."""

from __future__ import annotations

import contextlib
import fcntl
import itertools
import json
import os
import select
import shutil
import signal
import subprocess
import time
from pathlib import Path
from typing import Any

from support import PATIENCE

CHROMIUM = shutil.which("chromium")
_FLAGS = (
    "--headless --no-sandbox --disable-gpu --disable-dev-shm-usage --no-first-run --remote-debugging-pipe"
    " --window-size=1400,1000"
).split()


class Browser:
    """A tab of Chromium; `events` are its messages besides replies. A block closes it."""

    def __init__(self, folder: Path, *flags: str) -> None:
        """Starts Chromium with a folder of its own, and more flags."""
        assert CHROMIUM
        self.events: list[dict[str, Any]] = []
        self._numbers = itertools.count(1)
        self._text = b""
        # The browser reads from descriptor 3 and writes to 4; move ours away from both.
        requests, self._requests = os.pipe()
        self._replies, replies = os.pipe()
        mine = [fcntl.fcntl(end, fcntl.F_DUPFD_CLOEXEC, 10) for end in (requests, replies)]
        words = [CHROMIUM, *_FLAGS, *flags, f"--user-data-dir={folder}", "about:blank"]
        ends: dict[str, Any] = {name: subprocess.DEVNULL for name in ("stdin", "stdout", "stderr")}

        def place() -> None:
            os.dup2(mine[0], 3)
            os.dup2(mine[1], 4)

        # The files of the browser are removed with the folder.
        self._folder = folder
        folder.mkdir(exist_ok=True)
        surroundings = {**os.environ, "TMPDIR": str(folder)}
        self._process = subprocess.Popen(
            words, close_fds=False, preexec_fn=place, start_new_session=True, env=surroundings, **ends
        )
        for end in (requests, replies, *mine):
            os.close(end)
        self._session: str | None = None
        target = self.ask("Target.createTarget", url="about:blank")["targetId"]
        self._session = self.ask("Target.attachToTarget", targetId=target, flatten=True)["sessionId"]
        for domain in ("Page", "Runtime", "Log", "Network"):
            self.ask(f"{domain}.enable")
        self.ask("Page.setLifecycleEventsEnabled", enabled=True)

    def __enter__(self) -> Browser:
        return self

    def __exit__(self, *_: object) -> None:
        with contextlib.suppress(ProcessLookupError):
            os.killpg(self._process.pid, signal.SIGKILL)
        self._process.wait()
        os.close(self._requests)
        os.close(self._replies)
        # Its other processes may still write into the folder for a moment.
        last = time.monotonic() + PATIENCE
        while self._folder.exists() and time.monotonic() < last:
            shutil.rmtree(self._folder, ignore_errors=True)
            time.sleep(0.05)

    def ask(self, method: str, **fields: Any) -> dict[str, Any]:
        """Sends a command; returns its result."""
        number = next(self._numbers)
        request = {
            "id": number,
            "method": method,
            "params": fields,
            **({"sessionId": self._session} if self._session else {}),
        }
        text = json.dumps(request).encode() + b"\0"
        while text:
            text = text[os.write(self._requests, text) :]
        while (message := self._next()).get("id") != number:
            self.events.append(message)
        if "error" in message:
            raise AssertionError(f"{method}: {message['error']}")
        result: dict[str, Any] = message["result"]
        return result

    def _next(self) -> dict[str, Any]:
        last = time.monotonic() + 3 * PATIENCE
        while b"\0" not in self._text:
            if not select.select([self._replies], [], [], max(0, last - time.monotonic()))[0]:
                raise AssertionError("the browser says nothing")
            piece = os.read(self._replies, 1 << 20)
            if not piece:
                raise AssertionError("the browser has ended")
            self._text += piece
        text, self._text = self._text.split(b"\0", 1)
        message: dict[str, Any] = json.loads(text)
        return message

    def open(self, address: str) -> None:
        """Loads a page."""
        self.events.clear()
        # (the events of the page before may come late, so those of this one are told apart)
        loader = self.ask("Page.navigate", url=address)["loaderId"]

        def is_loaded(event: dict[str, Any]) -> bool:
            fields = event.get("params", {})
            is_load = event.get("method") == "Page.lifecycleEvent" and fields["name"] == "load"
            return is_load and fields["loaderId"] == loader

        while not any(map(is_loaded, self.events)):
            self.events.append(self._next())
        self.drawn()

    def value(self, code: str) -> Any:
        """Evaluates JavaScript in the page."""
        result = self.ask("Runtime.evaluate", expression=code, returnByValue=True, awaitPromise=True)
        if "exceptionDetails" in result:
            raise AssertionError(f"{code}: {result['exceptionDetails']}")
        return result["result"].get("value")

    def until(self, code: str) -> None:
        """Waits until an expression of the page is true."""
        last = time.monotonic() + PATIENCE
        while not self.value(code):
            if time.monotonic() > last:
                raise AssertionError(f"not true in the page: {code}; faults: {self.faults()[:3]}")
            time.sleep(0.02)

    def drawn(self) -> None:
        """Waits until changes are drawn."""
        self.value("new Promise((done) => requestAnimationFrame(() => requestAnimationFrame(() => done(0))))")

    def mouse(self, kind: str, x: float, y: float, **fields: Any) -> None:
        self.ask("Input.dispatchMouseEvent", type=kind, x=x, y=y, **fields)

    def middle(self, selector: str) -> list[float]:
        """Brings an element into sight; returns its middle."""
        code = f"const e = document.querySelector({json.dumps(selector)}); e.scrollIntoView({{ block: 'center' }});"
        code += "const b = e.getBoundingClientRect(); return [b.x + b.width / 2, b.y + b.height / 2];"
        found: list[float] = self.value(f"(() => {{ {code} }})()")
        return found

    def click(self, selector: str) -> None:
        """Clicks into the middle of an element. If the element has moved meanwhile, it is clicked where it is now."""
        name = json.dumps(selector)
        note = f"(event) => {{ window.isClicked ||= !!event.target.closest({name}); }}"
        self.value(f"window.isClicked = false; document.addEventListener('click', {note}, {{ capture: true }})")
        last = time.monotonic() + PATIENCE
        while not self.value("window.isClicked"):
            if time.monotonic() > last:
                raise AssertionError(f"{selector} cannot be clicked")
            x, y = self.middle(selector)
            for kind in ("mousePressed", "mouseReleased"):
                self.mouse(kind, x, y, button="left", clickCount=1)
        self.drawn()

    def key(self, key: str) -> None:
        for kind in ("keyDown", "keyUp"):
            self.ask("Input.dispatchKeyEvent", type=kind, key=key)
        self.drawn()

    def screen(self, width: int, dark: bool = False) -> None:
        """Sets the width of the screen, and its colours."""
        self.ask("Emulation.setDeviceMetricsOverride", width=width, height=1000, deviceScaleFactor=1, mobile=False)
        feature = {"name": "prefers-color-scheme", "value": "dark" if dark else "light"}
        self.ask("Emulation.setEmulatedMedia", features=[feature])
        self.drawn()

    def faults(self) -> list[dict[str, Any]]:
        """The errors in the page, and its network requests."""
        found = []
        for event in self.events:
            method, fields = event.get("method"), event.get("params", {})
            if method in ("Runtime.exceptionThrown", "Log.entryAdded") or (method == "Runtime.consoleAPICalled"):
                found.append(event)
            elif method == "Network.requestWillBeSent" and not fields["request"]["url"].startswith(("file:", "data:")):
                found.append(event)
        return found

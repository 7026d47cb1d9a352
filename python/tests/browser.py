"""Drives a headless Chromium by its own protocol, over two pipes, with nothing but the standard library: real clicks and keys."""
from __future__ import annotations

import base64
import json
import os
import select
import shutil
import subprocess
import tempfile
import time
from pathlib import Path
from typing import Any

NAMES = ("chromium", "chromium-browser", "google-chrome", "google-chrome-stable", "chrome")
PATIENCE = 300.0
# The contrast of each text with its ground, by the formula of the Web Content Accessibility Guidelines, which want 4.5 at least.
CONTRASTS = """(() => {
  const part = (v) => { v /= 255; return v <= 0.03928 ? v / 12.92 : ((v + 0.055) / 1.055) ** 2.4; };
  const light = (c) => { const [r, g, b] = c.match(/[0-9.]+/g).map(Number); return 0.2126 * part(r) + 0.7152 * part(g) + 0.0722 * part(b); };
  const ground = (e) => { for (; e; e = e.parentElement) { const c = getComputedStyle(e).backgroundColor; if (!/, 0\\)/.test(c)) return c; }
    return "rgb(255, 255, 255)"; };
  return [...document.querySelectorAll("body *")].filter((e) => [...e.childNodes].some((n) => n.nodeType === 3 && n.data.trim())
    && e.checkVisibility() && !e.closest("svg, script")).map((e) => {
    const [a, b] = [light(getComputedStyle(e).color), light(ground(e))].sort((x, y) => y - x);
    return [(a + 0.05) / (b + 0.05), e.textContent]; });
})()"""


def browser_path() -> str | None:
    """The browser of $BROWSER_FOR_TESTS, or one that is on PATH."""
    named = os.environ.get("BROWSER_FOR_TESTS")
    return next(filter(None, map(shutil.which, (named,) if named else NAMES)), None)


class Browser:
    """One page of a headless browser. `requests` lists what the page asked to be loaded, `errors` what its scripts said was wrong."""

    def __init__(self, path: str, width: int = 1366, height: int = 768) -> None:
        self.requests: list[str] = []
        self.errors: list[str] = []
        self._home = tempfile.mkdtemp(prefix="browser")
        to_read, self._to = os.pipe()
        self._from, from_write = os.pipe()
        # else clicks and keys are passed over as long as nothing of a new page was drawn
        words = [path, "--headless", "--no-sandbox", "--disable-gpu", "--disable-dev-shm-usage", "--remote-debugging-pipe", "--allow-pre-commit-input",
                 f"--user-data-dir={self._home}", f"--window-size={width},{height}", "--hide-scrollbars", "about:blank"]
        # the browser reads from 3 and writes to 4
        self._process = subprocess.Popen(["bash", "-c", f'exec "$@" 3<&{to_read} 4>&{from_write}', "bash", *words],
                                         pass_fds=(to_read, from_write), stdout=subprocess.DEVNULL, stderr=subprocess.DEVNULL)
        os.close(to_read)
        os.close(from_write)
        self._number, self._rest, self._session = 0, b"", None
        target = self.call("Target.createTarget", url="about:blank")["targetId"]
        self._session = self.call("Target.attachToTarget", targetId=target, flatten=True)["sessionId"]
        for domain in ("Page", "Runtime", "Network", "Log", "Accessibility"):
            self.call(f"{domain}.enable")
        self.call("Emulation.setDeviceMetricsOverride", width=width, height=height, deviceScaleFactor=1, mobile=False)

    def close(self) -> None:
        os.close(self._to)
        os.close(self._from)
        self._process.kill()
        self._process.wait()
        shutil.rmtree(self._home, ignore_errors=True)

    def call(self, method: str, **arguments: Any) -> dict[str, Any]:
        """Calls a method of the protocol, and gives its result."""
        self._number += 1
        message: dict[str, Any] = {"id": self._number, "method": method, "params": arguments}
        if self._session:
            message["sessionId"] = self._session
        os.write(self._to, json.dumps(message).encode() + b"\0")
        deadline = time.monotonic() + PATIENCE
        while True:
            answer = self._next(deadline)
            if answer.get("id") == self._number:
                if "error" in answer:
                    raise RuntimeError(f"{method}: {answer['error']}")
                result: dict[str, Any] = answer["result"]
                return result
            self._note(answer)

    def _next(self, deadline: float) -> dict[str, Any]:
        while b"\0" not in self._rest:
            ready, _, _ = select.select([self._from], [], [], max(0.0, deadline - time.monotonic()))
            data = os.read(self._from, 1 << 16) if ready else b""
            if not data:
                raise TimeoutError("the browser does not answer")
            self._rest += data
        text, _, self._rest = self._rest.partition(b"\0")
        message: dict[str, Any] = json.loads(text)
        return message

    def _note(self, event: dict[str, Any]) -> None:
        if event.get("method") == "Network.requestWillBeSent":
            self.requests.append(event["params"]["request"]["url"])
        elif event.get("method") == "Runtime.exceptionThrown":
            self.errors.append(event["params"]["exceptionDetails"]["text"])
        elif event.get("method") == "Log.entryAdded":
            self.errors.append(event["params"]["entry"]["text"])

    # what a user does

    def open(self, path: Path, fragment: str = "") -> None:
        """Opens a file, and waits until its script has run."""
        self.visit(path.as_uri() + fragment)
        self.wait("document.readyState === 'complete' && document.querySelector('h2').textContent !== ''")

    def visit(self, address: str) -> None:
        """Opens an address, and waits until the page before has gone: the protocol may answer before that."""
        self.value("window.isLeft = true")
        self.call("Page.navigate", url=address)
        self.wait("window.isLeft === undefined")

    def value(self, script: str) -> Any:
        """The value of an expression in the page; of a promise that which it comes to."""
        answer = self.call("Runtime.evaluate", expression=script, returnByValue=True, awaitPromise=True)
        if "exceptionDetails" in answer:
            raise RuntimeError(f"{script}: {answer['exceptionDetails']}")
        return answer["result"].get("value")

    def wait(self, condition: str) -> None:
        """Waits until an expression is true."""
        deadline = time.monotonic() + PATIENCE
        while not self._is_true(condition):
            if time.monotonic() > deadline:
                raise TimeoutError(condition)
            time.sleep(0.02)

    def _is_true(self, condition: str) -> bool:
        try:
            return self.value(condition) is True
        except RuntimeError:
            return False

    def click(self, selector: str) -> None:
        """Clicks into the middle of an element."""
        self.value(f"document.querySelector({json.dumps(selector)}).scrollIntoView({{block: 'center'}})")
        x, y = self.value(f"(() => {{ const r = document.querySelector({json.dumps(selector)}).getBoundingClientRect();"
                          " return [r.x + r.width / 2, r.y + r.height / 2]; })()")
        for kind in ("mousePressed", "mouseReleased"):
            self.call("Input.dispatchMouseEvent", type=kind, x=x, y=y, button="left", clickCount=1)

    def click_at(self, x: float, y: float, button: str = "left", modifiers: int = 0) -> None:
        """Clicks at a point of the page."""
        self.drag(x, y, x, y, button, modifiers)

    def drag(self, x: float, y: float, to_x: float, to_y: float, button: str = "left", modifiers: int = 0) -> None:
        """Presses a button at a point, goes to another, and lets it go."""
        def at(kind: str, x: float, y: float) -> None:
            self.call("Input.dispatchMouseEvent", type=kind, x=x, y=y, button=button, clickCount=1, modifiers=modifiers)

        at("mousePressed", x, y)
        if (x, y) != (to_x, to_y):
            for share in (0.3, 0.7, 1.0):
                at("mouseMoved", x + share * (to_x - x), y + share * (to_y - y))
        at("mouseReleased", to_x, to_y)

    def wheel(self, x: float, y: float, by: float, modifiers: int = 0) -> None:
        """Turns the wheel over a point."""
        self.call("Input.dispatchMouseEvent", type="mouseWheel", x=x, y=y, deltaX=0, deltaY=by, modifiers=modifiers)

    def press(self, key: str, code: int = 0, modifiers: int = 0) -> None:
        """Presses a key and lets it go; `code` is its Windows key code, and `modifiers` adds 1 for Alt, 2 for Ctrl and 8 for Shift."""
        text = {"text": "\r"} if key == "Enter" else {"text": key} if len(key) == 1 and not modifiers & 3 else {}
        for kind in ("keyDown", "keyUp"):
            own = text if kind == "keyDown" else {}
            self.call("Input.dispatchKeyEvent", type=kind, key=key, code=key, windowsVirtualKeyCode=code, modifiers=modifiers, **own)

    def write(self, text: str) -> None:
        """Writes into the element that has the focus."""
        self.call("Input.insertText", text=text)

    def tree(self) -> list[dict[str, Any]]:
        """The tree that a screen reader is told, as nodes with a role and a name."""
        nodes = self.call("Accessibility.getFullAXTree")["nodes"]
        return [{"role": node.get("role", {}).get("value"), "name": node.get("name", {}).get("value", "")} for node in nodes
                if not node.get("ignored")]

    def picture(self) -> bytes:
        """What is seen, as PNG."""
        return base64.b64decode(self.call("Page.captureScreenshot", format="png")["data"])

"""A browser by the WebDriver protocol: the few commands that the tests and the pictures need, and what the page of a run shows in it."""

from __future__ import annotations

import base64
import json
import os
import re
import shutil
import subprocess
import tempfile
import time
import urllib.error
import urllib.request
from typing import Any, Callable, Dict, List, Optional

ELEMENT = "element-6066-11e4-a52e-4f735466cecf"
KEYS = {
    "left": "\ue012", "up": "\ue013", "right": "\ue014", "down": "\ue015", "home": "\ue011", "end": "\ue010", "page down": "\ue00f",
    "page up": "\ue00e", "enter": "\ue007", "tab": "\ue004", "escape": "\ue00c", "shift": "\ue008",
    "control": "\ue009", "alt": "\ue00a",
}  # fmt: skip


def chromium() -> Optional[str]:
    return shutil.which("chromium") or shutil.which("chromium-browser") or shutil.which("google-chrome")


def is_there() -> bool:
    return bool(shutil.which("chromedriver") and chromium())


class Browser:
    """One headless Chromium with a driver and a folder of its own."""

    def __init__(self, width: int = 1400, height: int = 900, scrollbars: bool = False, letters: int = 0) -> None:
        """`letters` is the size of letters that a person has chosen for all pages, in pixels; the usual one without."""
        self.folder = tempfile.mkdtemp(prefix="look-")
        words = dict(os.environ, HOME=self.folder, TMPDIR=self.folder)
        self.driver = subprocess.Popen(
            [str(shutil.which("chromedriver")), "--port=0"],
            stdout=subprocess.PIPE,
            stderr=subprocess.DEVNULL,
            text=True,
            env=words,
        )
        self.at, self.session = "", ""
        try:
            for line in self.driver.stdout or ():
                found = re.search(r"successfully on port (\d+)", line)
                if found:
                    self.at = f"http://127.0.0.1:{found.group(1)}"
                    break
            arguments = ["--headless=new", f"--window-size={width},{height}", "--force-device-scale-factor=1"]
            arguments += [] if scrollbars else ["--hide-scrollbars"]
            arguments += ["--no-sandbox"] if os.getuid() == 0 else []
            arguments += [
                "--disable-gpu",
                "--disable-dev-shm-usage",
                "--disable-smooth-scrolling",
                f"--user-data-dir={self.folder}/profile",
            ]
            options: Dict[str, Any] = {"binary": chromium(), "args": arguments}
            if letters:
                options["prefs"] = {"webkit.webprefs.default_font_size": letters}
            wanted = {"goog:chromeOptions": options, "goog:loggingPrefs": {"browser": "ALL"}}
            made = self._ask("POST", "/session", {"capabilities": {"alwaysMatch": wanted}})
            self.session = "/session/" + made["sessionId"]
        except BaseException:
            self.close()
            raise

    def _ask(self, method: str, path: str, words: Optional[Dict[str, Any]] = None) -> Any:
        body = json.dumps(words or {}).encode() if method == "POST" else None
        request = urllib.request.Request(self.at + path, body, {"Content-Type": "application/json"}, method=method)
        opener = urllib.request.build_opener(urllib.request.ProxyHandler({}))
        try:
            with opener.open(request, timeout=900) as reply:
                return json.load(reply)["value"]
        except urllib.error.HTTPError as failure:
            raise RuntimeError(json.load(failure)["value"]["message"]) from None

    def call(self, method: str, path: str, **words: Any) -> Any:
        return self._ask(method, self.session + path, words)

    def open(self, address: str) -> None:
        self.call("POST", "/url", url=address)

    def run(self, script: str, *arguments: Any) -> Any:
        """The value that a function body returns."""
        return self.call("POST", "/execute/sync", script=script, args=list(arguments))

    def text(self, selector: str) -> str:
        return str(self.run("return document.querySelector(arguments[0]).textContent", selector))

    def texts(self, selector: str) -> Any:
        return self.run(
            "return Array.from(document.querySelectorAll(arguments[0]), (one) => one.textContent)", selector
        )

    def find(self, selector: str) -> str:
        return str(self.call("POST", "/element", using="css selector", value=selector)[ELEMENT])

    def click(self, selector: str) -> None:
        self.call("POST", f"/element/{self.find(selector)}/click")

    def type(self, selector: str, text: str) -> None:
        """Replaces what is in a field."""
        element = self.find(selector)
        self.call("POST", f"/element/{element}/clear")
        self.call("POST", f"/element/{element}/value", text=text)

    def press(self, *keys: str, held: str = "") -> None:
        """Presses keys where the focus is, with another one held."""
        acts = [{"type": kind, "value": KEYS.get(key, key)} for key in keys for kind in ("keyDown", "keyUp")]
        if held:
            acts = [{"type": "keyDown", "value": KEYS[held]}, *acts, {"type": "keyUp", "value": KEYS[held]}]
        self.call("POST", "/actions", actions=[{"type": "key", "id": "keyboard", "actions": acts}])

    def point(self, x: float, y: float, click: bool = False) -> None:
        acts = [{"type": "pointerMove", "duration": 0, "x": int(x), "y": int(y)}]
        acts += [{"type": "pointerDown", "button": 0}, {"type": "pointerUp", "button": 0}] if click else []
        self.call("POST", "/actions", actions=[{"type": "pointer", "id": "mouse", "actions": acts}])

    def drag(self, x: float, y: float, to_x: float, to_y: float) -> None:
        acts: List[Dict[str, Any]] = [
            {"type": "pointerMove", "duration": 0, "x": int(x), "y": int(y)},
            {"type": "pointerDown", "button": 0},
        ]
        acts += [
            {"type": "pointerMove", "duration": 20, "x": int(to_x), "y": int(to_y)},
            {"type": "pointerUp", "button": 0},
        ]
        self.call("POST", "/actions", actions=[{"type": "pointer", "id": "mouse", "actions": acts}])

    def cdp(self, command: str, **words: Any) -> Any:
        """A command of Chromium's own protocol."""
        return self.call("POST", "/goog/cdp/execute", cmd=command, params=words)

    def dark(self, is_dark: bool) -> None:
        self.cdp(
            "Emulation.setEmulatedMedia",
            features=[{"name": "prefers-color-scheme", "value": "dark" if is_dark else "light"}],
        )

    def size(self, width: int = 0, height: int = 900) -> None:
        """The size of the page; as the window is without a width."""
        if width:
            self.cdp(
                "Emulation.setDeviceMetricsOverride", width=width, height=height, deviceScaleFactor=1, mobile=False
            )
        else:
            self.cdp("Emulation.clearDeviceMetricsOverride")

    def busy(self) -> float:
        """The seconds that the page's thread has worked, after Performance.enable."""
        return float(
            next(one["value"] for one in self.cdp("Performance.getMetrics")["metrics"] if one["name"] == "TaskDuration")
        )

    def complaints(self) -> Any:
        """What the browser wrote to its console since the last look."""
        return [entry["message"] for entry in self.call("POST", "/se/log", type="browser")]

    def until(self, holds: Callable[[], Any], seconds: float = 300) -> bool:
        end = time.monotonic() + seconds
        while time.monotonic() < end:
            if holds():
                return True
            time.sleep(0.05)
        return False

    def picture(self, file: str) -> None:
        with open(file, "wb") as to:
            to.write(base64.b64decode(self.call("GET", "/screenshot")))

    def close(self) -> None:
        try:
            if self.session:
                self.call("DELETE", "")
        finally:
            self.driver.terminate()
            self.driver.wait(300)
            if self.driver.stdout:
                self.driver.stdout.close()
            shutil.rmtree(self.folder, ignore_errors=True)


def moment(browser: Browser) -> int:
    """The moment that a page shows."""
    found = re.match(r"after ([\d,]+) of", browser.text("#moment"))
    assert found
    return int(found[1].replace(",", ""))


def row_of(browser: Browser, name: str) -> Any:
    """The cells of a group's row, and its classes."""
    script = """const row = [...document.querySelectorAll("#tree .row")].find((one) => one.firstChild.title === arguments[0]);
        return row && [row.className, ...[...row.children].map((one) => one.textContent.trim())]"""
    return browser.run(script, name)

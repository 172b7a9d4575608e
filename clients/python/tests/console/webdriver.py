"""A browser that is steered by its driver, over the W3C's WebDriver: as much of it as tests take."""

from __future__ import annotations

import base64
import json
import shutil
import subprocess
import tempfile
import time
import unittest
from pathlib import Path
from typing import Any, Dict, List, Optional
from urllib.error import HTTPError
from urllib.request import Request, urlopen

SECONDS = 240
_ELEMENT = "element-6066-11e4-a52e-4f735466cecf"
DRIVER = shutil.which("chromedriver")
needs_browser = unittest.skipUnless(
    DRIVER, "there is no chromedriver: tools/packages installs chromium-driver"
)
_ARGUMENTS = [
    "--headless=new", "--no-sandbox", "--disable-dev-shm-usage", "--disable-gpu", "--no-first-run",
    "--disable-background-networking", "--hide-scrollbars", "--force-device-scale-factor=1",
]


class Refused(Exception):
    """The driver refuses a command, as where an element isn't there any more."""


class Browser:
    """A browser without a window, with a folder of its own."""

    def __init__(self, width: int = 1280, height: int = 860, is_dark: bool = False) -> None:
        assert DRIVER is not None
        self._place = tempfile.mkdtemp()
        self.downloads = Path(self._place, "downloads")
        self._driver = subprocess.Popen(
            [DRIVER, "--port=0"], stdin=subprocess.DEVNULL, stdout=subprocess.PIPE,
            stderr=subprocess.DEVNULL, text=True,
        )
        assert self._driver.stdout is not None
        for line in self._driver.stdout:
            if "started successfully on port" in line:
                self._url = f"http://127.0.0.1:{line.split()[-1].rstrip('.')}/session"
                break
        arguments = [*_ARGUMENTS, f"--window-size={width},{height}"]
        arguments.append(f"--user-data-dir={self._place}/profile")
        arguments += ["--force-dark-mode"] if is_dark else []
        options = {"args": arguments, "prefs": {"download.default_directory": str(self.downloads)}}
        wanted = {"capabilities": {"alwaysMatch": {
            "browserName": "chrome", "goog:chromeOptions": options,
            "goog:loggingPrefs": {"browser": "ALL"},
        }}}
        self._url += "/" + self._command("POST", "", wanted)["sessionId"]

    def close(self) -> None:
        """Ends it."""
        try:
            self._command("DELETE", "")
        finally:
            self._driver.terminate()
            self._driver.communicate()
            shutil.rmtree(self._place, ignore_errors=True)

    def _command(self, method: str, path: str, said: Optional[Dict[str, Any]] = None) -> Any:
        data = json.dumps(said or {}).encode() if method == "POST" else None
        asked = Request(self._url + path, data, {"Content-Type": "application/json"}, method=method)
        try:
            with urlopen(asked, timeout=SECONDS) as answer:
                return json.load(answer)["value"]
        except HTTPError as fault:
            raise Refused(json.load(fault)["value"]["message"]) from None

    def go(self, url: str) -> None:
        """Goes to a page."""
        self._command("POST", "/url", {"url": url})

    def run(self, script: str, *words: Any) -> Any:
        """What a script answers."""
        return self._command("POST", "/execute/sync", {"script": script, "args": list(words)})

    def wait(self, script: str, *words: Any) -> Any:
        """What a script answers, once that is true."""
        until = time.monotonic() + SECONDS
        while True:
            found = self.run(script, *words)
            if found:
                return found
            if time.monotonic() > until:
                raise AssertionError(f"never true: {script} {words}: {self.text()}")
            time.sleep(0.05)

    def text(self, selector: str = "body") -> str:
        """What is to be read in an element."""
        return str(self.run("return document.querySelector(arguments[0]).innerText", selector))

    def wait_text(self, words: str, selector: str = "body") -> None:
        """Waits until words are to be read in an element that is shown."""
        self.wait("const it = document.querySelector(arguments[0]);"
                  "return it && it.innerText.includes(arguments[1])", selector, words)

    def _element(self, name: str, of: str = "button") -> str:
        """The element of a sort that is called so, by what a screen reader tells of it."""
        found: Dict[str, str] = self.wait(
            "return [...document.querySelectorAll(arguments[1])].find(it => it.getClientRects().length"
            " && !it.disabled && (it.getAttribute('aria-label') || it.innerText).trim()"
            " === arguments[0])", name, of,
        )
        return found[_ELEMENT]

    def click(self, name: str, of: str = "button") -> None:
        """Clicks what is called so."""
        until = time.monotonic() + SECONDS
        while True:
            try:
                self._command("POST", f"/element/{self._element(name, of)}/click")
                return
            except Refused:  # It was drawn anew meanwhile.
                if time.monotonic() > until:
                    raise
                time.sleep(0.05)

    def keys(self, text: str, *held: str) -> None:
        """Types where the focus is, with keys held."""
        down = [{"type": "keyDown", "value": key} for key in held]
        typed: List[Dict[str, str]] = [
            {"type": sort, "value": key} for key in text for sort in ("keyDown", "keyUp")
        ]
        up = [{"type": "keyUp", "value": key} for key in held]
        actions = [{"type": "key", "id": "keyboard", "actions": [*down, *typed, *up]}]
        self._command("POST", "/actions", {"actions": actions})

    def fill(self, selector: str, text: str) -> None:
        """Types a text into a field, in place of what stands there."""
        found: Dict[str, str] = self.wait("return document.querySelector(arguments[0])", selector)
        self._command("POST", f"/element/{found[_ELEMENT]}/clear")
        self._command("POST", f"/element/{found[_ELEMENT]}/value", {"text": text})

    def faults(self) -> List[str]:
        """What the browser's own log tells of faults."""
        told = self._command("POST", "/se/log", {"type": "browser"})
        return [each["message"] for each in told if each["level"] == "SEVERE"]

    def picture(self, path: Path) -> None:
        """Writes what is seen as a PNG."""
        path.write_bytes(base64.b64decode(self._command("GET", "/screenshot")))

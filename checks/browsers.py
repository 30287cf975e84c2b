"""Chromium and Firefox without a window, for checks of the page.

They speak the protocol of the developer tools and WebDriver BiDi over a web socket. `chromium`, `firefox-esr` and
`python3-websocket` are packages of Debian; no driver is needed."""

from __future__ import annotations

import base64
import json
import os
import re
import shutil
import subprocess
import sys
import tempfile
import time
import urllib.request
from typing import Any

# Debian's packages of Python are not on the path of another Python.
sys.path.append("/usr/lib/python3/dist-packages")
TIME = 60
COMMANDS = {"chromium": "chromium", "firefox": "firefox-esr"}
DARK = "ui.systemUsesDarkTheme"


class Lost(Exception):
    """The browser did not answer, or with an error."""


def absent(name: str) -> str:
    """What is missing to run a browser; nothing if it can be run."""
    if not shutil.which(COMMANDS[name]):
        return f"there is no {COMMANDS[name]}"
    try:
        import websocket  # noqa: F401
    except ImportError:
        return "there is no python3-websocket"
    return ""


class Browser:
    """A browser with one page. `run` runs JavaScript in it and returns its result."""

    words: list[str] = []
    listens = ""

    def __init__(self, is_dark: bool = False) -> None:
        import websocket

        self.is_dark, self.number = is_dark, 0
        self.folder = tempfile.TemporaryDirectory(ignore_cleanup_errors=True)
        self.prepare(self.folder.name)
        how = {"stderr": subprocess.PIPE, "stdout": subprocess.DEVNULL, "text": True, "start_new_session": True}
        self.process = subprocess.Popen([it.replace("FOLDER", self.folder.name) for it in self.words], **how)
        found = None
        for line in self.process.stderr:
            found = re.search(self.listens, line)
            if found:
                break
        if not found:
            raise Lost(f"{self.words[0]} ended before it listened")
        self.socket = websocket.create_connection(self.address(found[1]), timeout=TIME, suppress_origin=True)
        self.begin()

    def prepare(self, folder: str) -> None:
        """Lays out the profile."""

    def begin(self) -> None:
        """The first calls."""

    def address(self, found: str) -> str:
        raise NotImplementedError

    def call(self, method: str, **parameters: Any) -> dict:
        self.number += 1
        self.socket.send(json.dumps({"id": self.number, "method": method, "params": parameters}))
        while True:
            answer = json.loads(self.socket.recv())
            if answer.get("id") == self.number:
                if "error" in answer:
                    raise Lost(str(answer)[:800])
                return answer["result"]

    def wait(self, condition: str, seconds: float = TIME) -> Any:
        """Waits until an expression of JavaScript is true, and returns it."""
        end, found = time.monotonic() + seconds, None
        while time.monotonic() < end:
            # There is no document for a moment when a page is opened.
            found = self.run(f"return document.documentElement && {condition}")
            if found:
                return found
            time.sleep(0.02)
        raise Lost(f"{condition} does not come, but {found}")

    def run(self, script: str) -> Any:
        raise NotImplementedError

    def close(self) -> None:
        self.process.terminate()
        try:
            self.process.wait(20)
        except subprocess.TimeoutExpired:
            self.process.kill()
            self.process.wait()
        self.folder.cleanup()


class Chromium(Browser):
    words = ["chromium", "--headless=new", "--no-sandbox", "--disable-gpu", "--remote-debugging-port=0", "--remote-allow-origins=*",
             "--disable-background-networking", "--user-data-dir=FOLDER", "about:blank"]
    listens = r"DevTools listening on ws://([^/]+)"

    def address(self, found: str) -> str:
        with urllib.request.urlopen(f"http://{found}/json", timeout=TIME) as answer:
            return next(it["webSocketDebuggerUrl"] for it in json.load(answer) if it["type"] == "page")

    def size(self, width: int, height: int, is_dark: bool) -> None:
        self.call("Emulation.setDeviceMetricsOverride", width=width, height=height, deviceScaleFactor=1, mobile=False)
        self.call("Emulation.setEmulatedMedia", features=[{"name": "prefers-color-scheme", "value": "dark" if is_dark else "light"}])

    def open(self, url: str) -> None:
        self.call("Page.navigate", url=url)

    def run(self, script: str) -> Any:
        found = self.call("Runtime.evaluate", expression=f"(async () => JSON.stringify((await (async () => {{ {script} }})()) ?? null))()", awaitPromise=True)
        if "exceptionDetails" in found:
            raise Lost(str(found["exceptionDetails"])[:800])
        return json.loads(found["result"]["value"])

    def key(self, name: str, code: int) -> None:
        text = {"text": "\r"} if name == "Enter" else {}
        for kind, more in (("keyDown" if text else "rawKeyDown", text), ("keyUp", {})):
            self.call("Input.dispatchKeyEvent", type=kind, key=name, code=name, windowsVirtualKeyCode=code, **more)

    def insert(self, text: str) -> None:
        self.call("Input.insertText", text=text)

    def picture(self) -> bytes:
        return base64.b64decode(self.call("Page.captureScreenshot", format="png")["data"])

    def version(self) -> str:
        return self.call("Browser.getVersion")["product"]


class Firefox(Browser):
    words = ["firefox-esr", "--headless", "--no-remote", "--profile", "FOLDER", "--remote-debugging-port", "0"]
    listens = r"WebDriver BiDi listening on (ws://\S+)"

    def prepare(self, folder: str) -> None:
        with open(os.path.join(folder, "user.js"), "w", encoding="utf-8") as file:
            file.write(f'user_pref("layout.css.prefers-color-scheme.content-override", {0 if self.is_dark else 1});\n')

    def address(self, found: str) -> str:
        return f"{found}/session"

    def begin(self) -> None:
        self.session = self.call("session.new", capabilities={})
        self.context = self.call("browsingContext.getTree")["contexts"][0]["context"]

    def size(self, width: int, height: int, is_dark: bool) -> None:
        self.call("browsingContext.setViewport", context=self.context, viewport={"width": width, "height": height})

    def open(self, url: str) -> None:
        self.call("browsingContext.navigate", context=self.context, url=url, wait="complete")

    def run(self, script: str) -> Any:
        found = self.call("script.evaluate", expression=f"(async () => JSON.stringify((await (async () => {{ {script} }})()) ?? null))()",
                          target={"context": self.context}, awaitPromise=True)
        if found["type"] != "success":
            raise Lost(str(found)[:800])
        return json.loads(found["result"]["value"])

    def key(self, name: str, code: int) -> None:
        if name == "Enter":
            # Without a window the page has no focus, and then a key presses no button.
            self.run("document.activeElement.click()")
            return
        value = {"Tab": "\ue004", "ArrowDown": "\ue015", "ArrowUp": "\ue013", "ArrowRight": "\ue014", "ArrowLeft": "\ue012", "Escape": "\ue00c"}[name]
        actions = [{"type": "keyDown", "value": value}, {"type": "keyUp", "value": value}]
        self.call("input.performActions", context=self.context, actions=[{"type": "key", "id": "keyboard", "actions": actions}])

    def insert(self, text: str) -> None:
        actions = [it for letter in text for it in ({"type": "keyDown", "value": letter}, {"type": "keyUp", "value": letter})]
        self.call("input.performActions", context=self.context, actions=[{"type": "key", "id": "keyboard", "actions": actions}])

    def picture(self) -> bytes:
        return base64.b64decode(self.call("browsingContext.captureScreenshot", context=self.context)["data"])

    def version(self) -> str:
        it = self.session["capabilities"]
        return f"{it['browserName']}/{it['browserVersion']}"


BROWSERS = {"chromium": Chromium, "firefox": Firefox}

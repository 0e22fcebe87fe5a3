"""Drives headless Firefox through its Marionette protocol as a person does: by keys, mouse and files."""
import base64
import json
import os
import shutil
import socket
import subprocess
import tempfile
import time
from typing import Any

KEYS = {"Tab": "\ue004", "Enter": "\ue007", "ArrowRight": "\ue014", "ArrowLeft": "\ue012", "ArrowDown": "\ue015"}


class Firefox:
    """A browser with one page open. `close` ends it and removes its profile."""

    def __init__(self, url: str, width: int = 1280, height: int = 900, language: str = "en-GB", folder: str = ".", insecure: bool = False) -> None:
        self._profile = tempfile.mkdtemp()
        with socket.create_server(("127.0.0.1", 0)) as free:
            port = free.getsockname()[1]
        settings = {"marionette.port": port, "intl.accept_languages": language, "browser.download.folderList": 2,
                    "browser.download.dir": os.path.abspath(folder), "browser.download.always_ask_before_handling_new_types": False,
                    "browser.helperApps.neverAsk.saveToDisk": "application/pdf,image/png,image/svg+xml,text/plain,text/csv,application/json,application/zip",
                    "pdfjs.disabled": True, "browser.download.alwaysOpenPanel": False}
        with open(os.path.join(self._profile, "user.js"), "w", encoding="utf-8") as file:
            file.writelines(f"user_pref({json.dumps(name)}, {json.dumps(value)});\n" for name, value in settings.items())
        self._process = subprocess.Popen(["firefox-esr", "--headless", "--marionette", "--no-remote", "--profile", self._profile],
                                         stdout=subprocess.DEVNULL, stderr=subprocess.DEVNULL)
        self._socket, self._left, self._number = self._connected(port), b"", 0
        self._read()
        self._call("WebDriver:NewSession", acceptInsecureCerts=insecure)
        self._call("WebDriver:SetTimeouts", script=120000, pageLoad=120000)
        self._call("WebDriver:SetWindowRect", width=width, height=height)
        self.go(url)

    def go(self, url: str) -> None:
        """Opens a page, and waits until it has started."""
        self._call("WebDriver:Navigate", url=url)
        self.until("document.readyState === 'complete' && !!document.started && !document.getElementById('old')")

    def _connected(self, port: int) -> socket.socket:
        limit = time.time() + 90
        while True:
            try:
                return socket.create_connection(("127.0.0.1", port), timeout=180)
            except OSError:
                if time.time() > limit or self._process.poll() is not None:
                    raise
                time.sleep(0.2)

    def _read(self) -> Any:
        """A message: its length, a colon, and JSON."""
        while b":" not in self._left:
            self._left += self._socket.recv(1 << 16)
        size, self._left = self._left.split(b":", 1)
        while len(self._left) < int(size):
            self._left += self._socket.recv(1 << 20)
        message, self._left = self._left[:int(size)], self._left[int(size):]
        return json.loads(message)

    def _call(self, command: str, **params: Any) -> Any:
        self._number += 1
        message = json.dumps([0, self._number, command, params]).encode()
        self._socket.sendall(str(len(message)).encode() + b":" + message)
        _, _, error, result = self._read()
        if error:
            raise RuntimeError(f"{command}: {error['error']}: {error['message']}")
        return result

    def value(self, script: str) -> Any:
        """The value of a script, awaited. It sees the page's elements, and not what its scripts declare."""
        told = self._call("WebDriver:ExecuteAsyncScript", script=f"""const done = arguments[arguments.length - 1];
            (async () => ({script}))().then((value) => done(value ?? null), (error) => done('error: ' + error));""", args=[])
        return told["value"]

    def until(self, script: str, seconds: float = 60) -> None:
        limit = time.time() + seconds
        while not self.value(script):
            if time.time() > limit:
                raise TimeoutError(script)
            time.sleep(0.05)

    def _element(self, selector: str) -> str:
        return next(iter(self._call("WebDriver:FindElement", using="css selector", value=selector)["value"].values()))

    def text(self, name: str) -> str:
        return self.value(f"document.getElementById({json.dumps(name)}).innerText")

    def click(self, selector: str) -> None:
        # What is fixed at the window's edges must not cover it.
        self.value(f"document.querySelector({json.dumps(selector)}).scrollIntoView({{ block: 'center' }})")
        self._call("WebDriver:ElementClick", id=self._element(selector))

    def fill(self, selector: str, text: str) -> None:
        self._call("WebDriver:ElementClear", id=self._element(selector))
        self._call("WebDriver:ElementSendKeys", id=self._element(selector), text=text)

    def press(self, key: str) -> None:
        self._call("WebDriver:PerformActions", actions=[{"type": "key", "id": "keys", "actions": [
            {"type": "keyDown", "value": KEYS.get(key, key)}, {"type": "keyUp", "value": KEYS.get(key, key)}]}])

    def files(self, selector: str, *paths: str) -> None:
        self._call("WebDriver:ElementSendKeys", id=self._element(selector), text="\n".join(map(os.path.abspath, paths)))

    def downloads(self, folder: str) -> None:
        """It was said when the browser was started."""

    def printed(self, width: float, height: float) -> bytes:
        """What the printer gets, as PDF, of a paper of this size in mm."""
        page = {"width": width / 10, "height": height / 10}
        told = self._call("WebDriver:Print", page=page, margin=dict.fromkeys(("top", "bottom", "left", "right"), 0), background=True, shrinkToFit=False)
        return base64.b64decode(told["value"])

    def picture(self, path: str) -> None:
        """Saves a picture of the page."""
        told = self._call("WebDriver:TakeScreenshot", full=True)
        with open(path, "wb") as file:
            file.write(base64.b64decode(told["value"]))

    def close(self) -> None:
        try:
            self._call("Marionette:Quit", flags=["eForceQuit"])
            self._process.wait(30)
        except (OSError, RuntimeError, subprocess.TimeoutExpired):
            self._process.kill()
            self._process.wait()
        self._socket.close()
        shutil.rmtree(self._profile, ignore_errors=True)

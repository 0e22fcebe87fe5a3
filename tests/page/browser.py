"""Drives headless Chromium through its debugging pipe: by scripts, and as a person does, by keys, mouse and files."""
from __future__ import annotations

import base64
import fcntl
import itertools
import json
import os
import select
import shutil
import subprocess
import tempfile
import time
from typing import Any, Sequence


class Browser:
    """A browser with one page open, of this size. `close` ends it and removes its profile."""

    def __init__(self, url: str, width: int = 1000, height: int = 1400, dark: bool = False,
                 started: str = "document.readyState === 'complete' && !!document.started",
                 switches: Sequence[str] = (), mobile: bool = False, language: str = "en-GB") -> None:
        to_read, self._to = os.pipe()
        self._of, to_write = os.pipe()

        def pipes() -> None:
            # The browser reads descriptor 3 and writes 4, which may be those of the pipes' other ends.
            read, write = (fcntl.fcntl(end, fcntl.F_DUPFD, 16) for end in (to_read, to_write))
            os.dup2(read, 3), os.dup2(write, 4)

        self._profile = tempfile.mkdtemp()
        words = ["chromium", "--headless", "--no-sandbox", "--disable-gpu", f"--user-data-dir={self._profile}", f"--lang={language}", f"--accept-lang={language}",
                 "--remote-debugging-pipe", *switches, "about:blank"]
        self._process = subprocess.Popen(words, preexec_fn=pipes, close_fds=False,
                                         stdout=subprocess.DEVNULL, stderr=subprocess.DEVNULL)
        os.close(to_read), os.close(to_write)
        self._left, self._numbers = b"", itertools.count(1)
        # What the page asked for, and what its scripts complained of.
        self.asked: list[str] = []
        self.complaints: list[str] = []
        self._session = None
        target = self.call("Target.createTarget", url="about:blank")["targetId"]
        self._session = self.call("Target.attachToTarget", targetId=target, flatten=True)["sessionId"]
        self.call("Emulation.setDeviceMetricsOverride", width=width, height=height, deviceScaleFactor=1, mobile=mobile)
        if mobile:
            self.call("Emulation.setTouchEmulationEnabled", enabled=True)
        for domain in ("Network", "Runtime", "Log"):
            self.call(f"{domain}.enable")
        self.call("Emulation.setEmulatedMedia", features=[{"name": "prefers-color-scheme", "value": "dark" if dark else "light"}])
        self.go(url, started)

    def go(self, url: str, started: str = "document.readyState === 'complete' && !!document.started") -> None:
        """Opens a page, and waits until it has started."""
        self.call("Page.navigate", url=url)
        self.until(started)
        self.value("document.started")

    def call(self, method: str, seconds: float = 120, **params: Any) -> Any:
        """What the browser answers to a command."""
        number = next(self._numbers)
        message = {"id": number, "method": method, "params": params}
        if self._session:
            message["sessionId"] = self._session
        os.write(self._to, json.dumps(message).encode() + b"\0")
        limit = time.time() + seconds
        while True:
            while b"\0" not in self._left:
                if not select.select([self._of], [], [], max(0, limit - time.time()))[0]:
                    raise TimeoutError(method)
                read = os.read(self._of, 1 << 20)
                if not read:
                    raise EOFError(f"{method}: the browser has ended")
                self._left += read
            line, self._left = self._left.split(b"\0", 1)
            answer = json.loads(line)
            self._note(answer)
            if answer.get("id") == number:
                if "error" in answer:
                    raise RuntimeError(answer["error"])
                return answer["result"]

    def _note(self, message: dict[str, Any]) -> None:
        """Keeps the contents of an event."""
        params = message.get("params", {})
        if message.get("method") == "Network.requestWillBeSent":
            self.asked.append(params["request"]["url"])
        elif message.get("method") == "Runtime.exceptionThrown":
            self.complaints.append(params["exceptionDetails"].get("exception", {}).get("description") or params["exceptionDetails"]["text"])
        elif message.get("method") == "Log.entryAdded" and params["entry"]["level"] == "error":
            self.complaints.append(params["entry"]["text"])

    def value(self, script: str) -> Any:
        """The value of a script, awaited."""
        said = self.call("Runtime.evaluate", expression=script, awaitPromise=True, returnByValue=True)
        if "exceptionDetails" in said:
            raise RuntimeError(said["exceptionDetails"])
        return said["result"].get("value")

    def until(self, script: str, seconds: int = 30) -> None:
        limit = time.time() + seconds
        while not self.value(script):
            if time.time() > limit:
                raise TimeoutError(script)
            time.sleep(0.05)

    def choose(self, *paths: str) -> None:
        """Chooses files, as a user does in the dialog, and waits until the page has read them."""
        self.value("document.taken = null")
        node = self.call("Runtime.evaluate", expression="at('file')")["result"]["objectId"]
        self.call("DOM.setFileInputFiles", files=[os.path.abspath(path) for path in paths], objectId=node)
        self.until("document.taken !== null")
        self.value("document.taken")

    # ---- as a person does

    def text(self, name: str) -> str:
        """What an element says."""
        return self.value(f"document.getElementById({json.dumps(name)}).innerText")

    def click(self, selector: str) -> None:
        """Presses the mouse, or a finger, in the middle of an element."""
        place = self.value(f"""(() => {{
            const one = document.querySelector({json.dumps(selector)});
            one.scrollIntoView({{ block: 'center' }});
            const {{ left, top, width, height }} = one.getBoundingClientRect();
            return {{ x: left + width / 2, y: top + height / 2 }};
        }})()""")
        for kind in ("mousePressed", "mouseReleased"):
            self.call("Input.dispatchMouseEvent", type=kind, button="left", clickCount=1, **place)

    def fill(self, selector: str, text: str) -> None:
        """Pastes a text in place of what a field has."""
        self.value(f"document.querySelector({json.dumps(selector)}).select(), document.querySelector({json.dumps(selector)}).focus()")
        self.call("Input.insertText", text=text)

    def press(self, key: str, code: int = 0, modifiers: int = 0, when: float | None = None) -> None:
        """Presses a key: Tab, Enter, an arrow or a sign; at a time, in seconds, unless it is now."""
        code = code or {"Tab": 9, "Enter": 13, "ArrowRight": 39, "ArrowLeft": 37, "ArrowDown": 40, "Home": 36, "End": 35, " ": 32}.get(key) or ord(key[0].upper())
        text = {"Enter": "\r", " ": " "}.get(key, key if len(key) == 1 and not modifiers else None)
        words: dict[str, Any] = {"key": key, "code": {" ": "Space"}.get(key, key), "windowsVirtualKeyCode": code, "modifiers": modifiers,
                                 **({"timestamp": when} if when else {})}
        typed: dict[str, Any] = {"text": text} if text else {}
        self.call("Input.dispatchKeyEvent", type="keyDown" if text else "rawKeyDown", **words, **typed)
        self.call("Input.dispatchKeyEvent", type="keyUp", **words)

    def files(self, selector: str, *paths: str) -> None:
        """Chooses files in a dialog."""
        node = self.call("Runtime.evaluate", expression=f"document.querySelector({json.dumps(selector)})")["result"]["objectId"]
        self.call("DOM.setFileInputFiles", files=[os.path.abspath(path) for path in paths], objectId=node)

    def downloads(self, folder: str) -> None:
        """Where files are saved."""
        self.call("Browser.setDownloadBehavior", behavior="allow", downloadPath=os.path.abspath(folder))

    def printed(self, width: float, height: float) -> bytes:
        """What the printer gets, as PDF; the page says the size of its paper."""
        return base64.b64decode(self.call("Page.printToPDF", preferCSSPageSize=True, printBackground=True)["data"])

    def picture(self, path: str) -> None:
        """Saves a picture of the page."""
        clip = self.value("({ x: 0, y: 0, width: innerWidth, height: document.body.scrollHeight, scale: 1 })")
        shot = self.call("Page.captureScreenshot", format="png", captureBeyondViewport=True, clip=clip)
        with open(path, "wb") as file:
            file.write(base64.b64decode(shot["data"]))

    def close(self) -> None:
        self._process.terminate()
        self._process.wait()
        os.close(self._to), os.close(self._of)
        shutil.rmtree(self._profile, ignore_errors=True)

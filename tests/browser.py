"""A headless Chromium, which opens pages from files and hears of each click and key as from a person. It speaks by a pipe."""

import base64
import itertools
import json
import os
import select
import shutil
import subprocess
import tempfile
import time

NAMES = ("chromium-headless-shell", "chromium")

# In seconds, after how long a page that doesn't answer is given up.
LONGEST = 60

KEYS = {"Enter": 13, "Escape": 27, "ArrowLeft": 37, "ArrowRight": 39, "Tab": 9, "+": 187, "-": 189, "0": 48}


class Browser:
    """One browser with one page."""

    def __init__(self):
        program = next(filter(None, map(shutil.which, NAMES)))
        self.folder = tempfile.TemporaryDirectory(ignore_cleanup_errors=True)
        (ours_in, theirs_out), (theirs_in, ours_out) = os.pipe(), os.pipe()
        words = [program, "--headless", "--no-sandbox", "--disable-gpu", "--disable-ipc-flooding-protection", "--remote-debugging-pipe"]
        words.append(f"--user-data-dir={self.folder.name}/profile")
        line = f'exec "$@" 3<&{theirs_in} 4>&{theirs_out}'
        self.process = subprocess.Popen(["bash", "-c", line, "bash", *words], pass_fds=(theirs_in, theirs_out), stderr=subprocess.DEVNULL)
        os.close(theirs_in)
        os.close(theirs_out)
        self.given, self.asked, self.rest, self.numbers = ours_in, ours_out, b"", itertools.count(1)
        self.session, self.events = None, []
        target = self.call("Target.createTarget", url="about:blank")["targetId"]
        self.session = self.call("Target.attachToTarget", targetId=target, flatten=True)["sessionId"]
        for domain in ("Page", "Runtime", "Log", "Network"):
            self.call(f"{domain}.enable")

    def close(self):
        self.call("Browser.close")
        self.process.wait()
        os.close(self.given)
        os.close(self.asked)
        self.folder.cleanup()

    def call(self, method, **params):
        """What the browser answers to a command. What happens meanwhile is kept."""
        number = next(self.numbers)
        command = {"id": number, "method": method, "params": params, **({"sessionId": self.session} if self.session else {})}
        os.write(self.asked, json.dumps(command).encode() + b"\0")
        while True:
            message = self.message()
            if message.get("id") == number:
                if "error" in message:
                    raise RuntimeError(f"{method}: {message['error']}")
                return message["result"]
            self.events.append(message)

    def message(self):
        while b"\0" not in self.rest:
            if not select.select([self.given], [], [], LONGEST)[0]:
                raise TimeoutError("the browser doesn't answer")
            read = os.read(self.given, 1 << 20)
            if not read:
                raise EOFError("the browser has ended")
            self.rest += read
        text, _, self.rest = self.rest.partition(b"\0")
        return json.loads(text)

    def wait(self, method):
        """Waits for an event of the page."""
        while not any(event.get("method") == method for event in self.events):
            self.events.append(self.message())

    def open(self, file, width=1280, height=900, scheme="light"):
        """Opens a file in a window of this size."""
        self.call("Emulation.setDeviceMetricsOverride", width=width, height=height, deviceScaleFactor=1, mobile=False)
        self.call("Emulation.setEmulatedMedia", features=[{"name": "prefers-color-scheme", "value": scheme}])
        for url in ("about:blank", f"file://{file}"):
            self.events.clear()
            self.call("Page.navigate", url=url)
            self.wait("Page.loadEventFired")
        self.settle()

    def settle(self):
        """Waits until the page has drawn what is due."""
        self.run("new Promise((done) => requestAnimationFrame(() => requestAnimationFrame(() => done(1))))")

    def run(self, code):
        """What an expression of the page gives."""
        given = self.call("Runtime.evaluate", expression=code, awaitPromise=True, returnByValue=True)
        if "exceptionDetails" in given:
            raise RuntimeError(f"{code}: {given['exceptionDetails']['exception'].get('description')}")
        return given["result"].get("value")

    def faults(self):
        """What the console has of errors, and what the page asked the network for."""
        for event in self.events:
            method, params = event.get("method"), event.get("params", {})
            if method == "Runtime.exceptionThrown":
                yield params["exceptionDetails"].get("exception", params["exceptionDetails"]).get("description", "an exception")
            elif method == "Runtime.consoleAPICalled":
                yield f"console: {params['args']}"
            elif method == "Log.entryAdded":
                yield params["entry"]["text"]
            elif method == "Network.requestWillBeSent" and not params["request"]["url"].startswith(("file:", "blob:")):
                yield f"it asks for {params['request']['url']}"

    # What a person does.

    def click(self, x, y):
        for kind in ("mouseMoved", "mousePressed", "mouseReleased"):
            self.call("Input.dispatchMouseEvent", type=kind, x=x, y=y, button="none" if kind == "mouseMoved" else "left", clickCount=1)
        self.settle()

    def click_on(self, code):
        """Clicks into the middle of the element that an expression gives."""
        box = self.run(f"(() => {{ const e = {code}; e.scrollIntoView({{ block: 'nearest' }}); return e.getBoundingClientRect().toJSON(); }})()")
        self.click(box["x"] + box["width"] / 2, box["y"] + box["height"] / 2)

    def key(self, name, shift=False):
        text = {"text": name} if len(name) == 1 else {"text": "\r"} if name == "Enter" else {}
        common = {"key": name, "windowsVirtualKeyCode": KEYS.get(name, 0), "modifiers": 8 if shift else 0}
        self.call("Input.dispatchKeyEvent", type="keyDown", **common, **text)
        self.call("Input.dispatchKeyEvent", type="keyUp", **common)
        self.settle()

    def type(self, text):
        self.call("Input.insertText", text=text)
        self.settle()

    def wheel(self, x, y, down=0, right=0, is_zoom=False):
        self.call("Input.dispatchMouseEvent", type="mouseWheel", x=x, y=y, deltaX=right, deltaY=down, modifiers=2 if is_zoom else 0)
        time.sleep(0.1)
        self.settle()

    def download(self, button):
        """The file that a click on this button saves."""
        with tempfile.TemporaryDirectory() as folder:
            self.call("Browser.setDownloadBehavior", behavior="allow", downloadPath=folder, eventsEnabled=True)
            self.events = [event for event in self.events if event.get("method") != "Browser.downloadProgress"]
            self.click_on(button)
            while not any(event.get("params", {}).get("state") == "completed" for event in self.events):
                self.events.append(self.message())
            (name,) = os.listdir(folder)
            with open(f"{folder}/{name}", encoding="utf-8") as file:
                return name, file.read()

    def shoot(self, file):
        """Writes what is visible as a PNG."""
        with open(file, "wb") as out:
            out.write(base64.b64decode(self.call("Page.captureScreenshot")["data"]))

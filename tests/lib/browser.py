"""A headless Chromium, by its DevTools protocol over two pipes: no package, no port, no network."""
import base64
import fcntl
import json
import os
import select
import shutil
import subprocess
import time

import packages


class Gone(Exception):
    """The browser ended, answered nothing in time, or refused a call."""


def found():
    """Where Chromium is, or None; Debian's is installed where that may be done."""
    return shutil.which("chromium-browser") or (shutil.which("chromium") if packages.had("chromium") else None)


def ends():
    """The ends of a pipe, by numbers that nothing else has."""
    low = os.pipe()
    high = [fcntl.fcntl(end, fcntl.F_DUPFD_CLOEXEC, 20) for end in low]
    for end in low:
        os.close(end)
    return high


class Browser:
    def __init__(self, folder):
        to_read, to_write = ends()
        from_read, from_write = ends()
        # the shell puts the two ends where the browser looks for them
        words = [found(), "--headless=new", "--no-sandbox", "--disable-gpu", "--disable-dev-shm-usage", "--hide-scrollbars", "--no-first-run", "--remote-debugging-pipe"]
        words += ["--user-data-dir=" + os.path.join(folder, "profile"), "about:blank"]
        self.process = subprocess.Popen(
            ["bash", "-c", f'exec "$@" 3<&{to_read} 4>&{from_write} {to_read}<&- {from_write}>&-', "-", *words],
            pass_fds=(to_read, from_write), stdin=subprocess.DEVNULL, stdout=subprocess.DEVNULL, stderr=subprocess.DEVNULL,
        )
        os.close(to_read)
        os.close(from_write)
        self.output, self.input = from_read, to_write
        self.waiting, self.calls, self.events = b"", 0, []
        target = self.call("Target.createTarget", url="about:blank", session=None)["targetId"]
        self.session = self.call("Target.attachToTarget", targetId=target, flatten=True, session=None)["sessionId"]
        for domain in ("Page", "Runtime", "Log", "Network", "DOM", "Accessibility"):
            self.call(domain + ".enable")

    def receive(self, until):
        while b"\0" not in self.waiting:
            ready, _, _ = select.select([self.output], [], [], max(0, until - time.monotonic()))
            part = os.read(self.output, 1 << 20) if ready else b""
            if not part:
                raise Gone("the browser said nothing more")
            self.waiting += part
        message, self.waiting = self.waiting.split(b"\0", 1)
        return json.loads(message)

    def call(self, method, session="own", seconds=60, **params):
        self.calls += 1
        number = self.calls
        message = {"id": number, "method": method, "params": params}
        if session:
            message["sessionId"] = self.session
        os.write(self.input, json.dumps(message).encode() + b"\0")
        until = time.monotonic() + seconds
        while True:
            answer = self.receive(until)
            if answer.get("id") == number:
                if "error" in answer:
                    raise Gone(f"{method}: {answer['error']['message']}")
                return answer["result"]
            self.events.append(answer)

    def load(self, file):
        """Loads a page from a file, whole."""
        self.events = []
        self.call("Page.navigate", url="file://" + os.path.abspath(file))
        until = time.monotonic() + 60
        while not any(event.get("method") == "Page.loadEventFired" for event in self.events):
            self.events.append(self.receive(until))

    def messages(self):
        """What was said in the console, and what was fetched beside the page."""
        said = []
        for event in self.events:
            method, params = event.get("method"), event.get("params", {})
            if method in ("Runtime.consoleAPICalled", "Runtime.exceptionThrown"):
                said.append(json.dumps(params)[:300])
            elif method == "Log.entryAdded":
                said.append(params["entry"]["text"][:300])
            elif method == "Network.requestWillBeSent" and params.get("type") != "Document":
                said.append("asked for " + params["request"]["url"][:300])
        return said

    def ask(self, script):
        """The value of an expression in the page."""
        answer = self.call("Runtime.evaluate", expression=script, returnByValue=True, awaitPromise=True)
        if "exceptionDetails" in answer:
            raise Gone(answer["exceptionDetails"].get("exception", {}).get("description", "the script failed"))
        return answer["result"].get("value")

    def size(self, width, height):
        self.call("Emulation.setDeviceMetricsOverride", width=width, height=height, deviceScaleFactor=1, mobile=False)

    def scheme(self, name, media=""):
        self.call("Emulation.setEmulatedMedia", media=media, features=[{"name": "prefers-color-scheme", "value": name}])

    def press(self, key, code):
        for kind in ("keyDown", "keyUp"):
            self.call("Input.dispatchKeyEvent", type=kind, key=key, code=key, windowsVirtualKeyCode=code, **({"text": "\r"} if key == "Enter" and kind == "keyDown" else {}))

    def mouse(self, kind, x, y):
        button = {} if kind == "mouseMoved" else {"button": "left", "clickCount": 1}
        self.call("Input.dispatchMouseEvent", type=kind, x=x, y=y, **button)

    def tree(self):
        """What an assistive program sees: (role, name) in order, but for what it passes over."""
        nodes = self.call("Accessibility.getFullAXTree")["nodes"]
        return [(node["role"]["value"], node.get("name", {}).get("value", "")) for node in nodes if not node.get("ignored") and "role" in node]

    def picture(self, width):
        """The page as a PNG, all of its height."""
        self.size(width, 800)
        height = self.ask("document.documentElement.scrollHeight")
        clip = {"x": 0, "y": 0, "width": width, "height": height, "scale": 1}
        return base64.b64decode(self.call("Page.captureScreenshot", format="png", clip=clip, captureBeyondViewport=True)["data"])

    def end(self):
        try:
            self.call("Browser.close", session=None, seconds=10)
        except (Gone, OSError):
            pass
        try:
            self.process.wait(10)
        except subprocess.TimeoutExpired:
            self.process.kill()
            self.process.wait()

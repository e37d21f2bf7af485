"""A headless Chromium, led over a pipe by its DevTools protocol."""
import base64
import itertools
import json
import os
import shutil
import subprocess
import tempfile

NAME = shutil.which("chromium") or shutil.which("chromium-browser")


class Browser:
    """A browser with one page."""

    def __init__(self):
        self.profile = tempfile.mkdtemp()
        (to_read, self.to), (self.come, from_write) = os.pipe(), os.pipe()
        for descriptor in (to_read, from_write):
            os.set_inheritable(descriptor, True)
        words = "exec %s --headless --no-sandbox --disable-gpu --hide-scrollbars --remote-debugging-pipe --user-data-dir=%s 3<&%d 4>&%d" % (
            NAME, self.profile, to_read, from_write)
        self.process = subprocess.Popen(["bash", "-c", words], pass_fds=(to_read, from_write), stdout=subprocess.DEVNULL,
                                        stderr=subprocess.DEVNULL)
        os.close(to_read)
        os.close(from_write)
        self.numbers, self.rest, self.session, self.events = itertools.count(1), b"", None, []
        target = self.send("Target.createTarget", url="about:blank")["targetId"]
        self.session = self.send("Target.attachToTarget", targetId=target, flatten=True)["sessionId"]
        for domain in ("Page", "Runtime", "Log"):
            self.send(domain + ".enable")

    def send(self, method, **params):
        """A command and its result."""
        number = next(self.numbers)
        message = {"id": number, "method": method, "params": params}
        if self.session:
            message["sessionId"] = self.session
        os.write(self.to, json.dumps(message).encode() + b"\0")
        while True:
            found = self.receive()
            if found.get("id") == number:
                if "error" in found:
                    raise AssertionError("%s: %r" % (method, found["error"]))
                return found["result"]

    def receive(self):
        """The next message. Events are kept."""
        while b"\0" not in self.rest:
            piece = os.read(self.come, 1 << 16)
            if not piece:
                raise AssertionError("the browser ended")
            self.rest += piece
        message, _, self.rest = self.rest.partition(b"\0")
        found = json.loads(message)
        if "method" in found:
            self.events.append(found)
        return found

    def open(self, path):
        """Opens a file, and waits for it."""
        self.events.clear()
        self.send("Page.navigate", url="file://" + path)
        while not any(event["method"] == "Page.loadEventFired" for event in self.events):
            self.receive()

    def value(self, expression):
        """The value of an expression in the page."""
        found = self.send("Runtime.evaluate", expression=expression, returnByValue=True)
        if "exceptionDetails" in found:
            raise AssertionError("%s: %r" % (expression, found["exceptionDetails"]))
        return found["result"].get("value")

    def key(self, name):
        """Presses a key."""
        for kind in ("keyDown", "keyUp"):
            self.send("Input.dispatchKeyEvent", type=kind, key=name, code=name)

    def click(self, selector):
        """Clicks in the middle of an element."""
        self.value("document.querySelector(%s).scrollIntoView({block: 'center'})" % json.dumps(selector))
        x, y = self.value("(() => { const box = document.querySelector(%s).getBoundingClientRect();"
                          "return [box.x + box.width / 2, box.y + box.height / 2] })()" % json.dumps(selector))
        for kind in ("mousePressed", "mouseReleased"):
            self.send("Input.dispatchMouseEvent", type=kind, x=x, y=y, button="left", clickCount=1)

    def size(self, width, height):
        """The size of the window, as on a telephone."""
        self.send("Emulation.setDeviceMetricsOverride", width=width, height=height, deviceScaleFactor=2, mobile=width < 600)

    def media(self, kind="", scheme="light"):
        """The kind of medium, and the colour scheme."""
        self.send("Emulation.setEmulatedMedia", media=kind, features=[{"name": "prefers-color-scheme", "value": scheme}])

    def screenshot(self, path):
        """A picture of the window."""
        with open(path, "wb") as file:
            file.write(base64.b64decode(self.send("Page.captureScreenshot")["data"]))

    def close(self):
        """Ends the browser."""
        self.session = None
        try:
            self.send("Browser.close")
        except (AssertionError, OSError):
            pass
        self.process.wait(60)
        os.close(self.to)
        os.close(self.come)
        shutil.rmtree(self.profile, ignore_errors=True)

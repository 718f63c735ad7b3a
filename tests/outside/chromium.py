"""Debian's chromium without a window, led by its own protocol through two pipes: no library is needed."""
import base64
import json
import os
import select
import shutil
import subprocess
import tempfile
import time

LIMIT = 60  # seconds that it may take for one thing


class Browser:
    """One tab. Used by `with`, so that it ends."""

    def __init__(self):
        self.folder = tempfile.mkdtemp(prefix="page-")
        to_it, self.write = os.pipe()
        self.read, from_it = os.pipe()
        # descriptors 3 and 4 are those of the protocol; the shell gives them these numbers, whatever they were
        command = 'exec chromium "$@" 3<&%d 4>&%d' % (to_it, from_it)
        words = ["--headless=new", "--remote-debugging-pipe", "--no-sandbox", "--disable-gpu", "--disable-dev-shm-usage", "--hide-scrollbars",
                 "--no-first-run", "--disable-extensions", "--disable-background-networking", "--user-data-dir=" + self.folder, "about:blank"]
        self.child = subprocess.Popen(["bash", "-c", command, "chromium", *words], stdin=subprocess.DEVNULL, stdout=subprocess.DEVNULL,
                                      stderr=subprocess.DEVNULL, pass_fds=(to_it, from_it))
        os.close(to_it)
        os.close(from_it)
        self.number, self.rest, self.session, self.events = 0, b"", None, []
        tab = self.ask("Target.createTarget", url="about:blank")["targetId"]
        self.session = self.ask("Target.attachToTarget", targetId=tab, flatten=True)["sessionId"]
        for part in ("Page", "Runtime", "Network", "Log"):
            self.ask(part + ".enable")

    def __enter__(self):
        return self

    def __exit__(self, *_):
        self.child.kill()
        self.child.wait()
        os.close(self.write)
        os.close(self.read)
        shutil.rmtree(self.folder, ignore_errors=True)

    def ask(self, method, **params):
        """A request, and what comes back for it."""
        self.number += 1
        message = {"id": self.number, "method": method, "params": params}
        if self.session:
            message["sessionId"] = self.session
        os.write(self.write, json.dumps(message).encode() + b"\0")
        while True:
            answer = self.next()
            if answer.get("id") == self.number:
                if "error" in answer:
                    raise RuntimeError("%s: %s" % (method, answer["error"]))
                return answer["result"]
            self.events.append(answer)

    def next(self):
        ends = time.time() + LIMIT
        while b"\0" not in self.rest:
            if not select.select([self.read], [], [], max(0, ends - time.time()))[0]:
                raise RuntimeError("chromium says nothing for %d seconds" % LIMIT)
            piece = os.read(self.read, 1 << 20)
            if not piece:
                raise RuntimeError("chromium has ended")
            self.rest += piece
        message, _, self.rest = self.rest.partition(b"\0")
        return json.loads(message)

    def wait_for(self, method):
        while not any(event.get("method") == method for event in self.events):
            self.events.append(self.next())

    def screen(self, width, height=900, dark=False, script=True):
        self.ask("Emulation.setDeviceMetricsOverride", width=width, height=height, deviceScaleFactor=1, mobile=width < 500)
        self.ask("Emulation.setEmulatedMedia", features=[{"name": "prefers-color-scheme", "value": "dark" if dark else "light"}])
        self.ask("Emulation.setScriptExecutionDisabled", value=not script)

    def open(self, path):
        """Opens a file; seconds until it is loaded and drawn."""
        self.events.clear()
        began = time.time()
        self.ask("Page.navigate", url="file://" + os.path.realpath(path))
        self.wait_for("Page.loadEventFired")
        self.value("document.body.offsetHeight")
        return time.time() - began

    def value(self, expression):
        result = self.ask("Runtime.evaluate", expression=expression, returnByValue=True, awaitPromise=True)
        if "exceptionDetails" in result:
            raise RuntimeError("%s: %s" % (expression, result["exceptionDetails"].get("exception", {}).get("description")))
        return result["result"].get("value")

    def picture(self, path, whole=False, clip=None):
        more = {"captureBeyondViewport": True} if whole or clip else {}
        if whole:
            size = self.ask("Page.getLayoutMetrics")["cssContentSize"]
            clip = (0, 0, size["width"], min(size["height"], 8000))
        if clip:
            more["clip"] = dict(zip(("x", "y", "width", "height"), clip), scale=1)
        with open(path, "wb") as file:
            file.write(base64.b64decode(self.ask("Page.captureScreenshot", format="png", **more)["data"]))

    def click(self, expression):
        """A click of the mouse in the middle of what the expression is, as somebody makes it."""
        box = self.value("(e => { e.scrollIntoView({block: 'center', behavior: 'instant'}); const b = e.getBoundingClientRect(); "
                         "return [b.left + b.width / 2, b.top + b.height / 2]; })(%s)" % expression)
        for kind in ("mousePressed", "mouseReleased"):
            self.ask("Input.dispatchMouseEvent", type=kind, x=box[0], y=box[1], button="left", clickCount=1)

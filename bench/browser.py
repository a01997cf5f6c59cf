"""A headless Chromium, spoken to by the DevTools protocol over a pipe: each message is JSON and ends with a NUL."""

import base64
import json
import os
import select
import subprocess
import tempfile
import time

SECONDS = 120
# A sheet of A4, in inches, and how many pixels are between its margins.
SHEET = {"paperWidth": 8.27, "paperHeight": 11.69, "marginTop": 0.4, "marginBottom": 0.4, "marginLeft": 0.4, "marginRight": 0.4}
SHEET_WIDTH = 717
OPTIONS = [
    "--headless",
    "--hide-scrollbars",
    "--no-first-run",
    "--disable-background-networking",
    "--disable-component-update",
    "--disable-sync",
    "--remote-debugging-pipe",
]
# What is told of a page while it is loaded and shown.
DOMAINS = ["Page", "Network", "Runtime", "Debugger", "Log", "Audits", "Accessibility"]


class Browser:
    """The process of a browser, in whose events everything is kept that it told."""

    def __init__(self, program):
        self.folder = tempfile.TemporaryDirectory(ignore_cleanup_errors=True)
        (given, self.sent), (self.told, answered) = os.pipe(), os.pipe()
        sandbox = ["--no-sandbox"] if os.geteuid() == 0 else []
        words = [program, *OPTIONS, *sandbox, f"--user-data-dir={self.folder.name}", "about:blank"]
        # (The browser reads from the descriptor 3 and writes to 4.)
        shell = f'exec "$@" 3<&{given} 4>&{answered}'
        self.process = subprocess.Popen(
            ["sh", "-c", shell, "sh", *words], pass_fds=(given, answered), stdout=subprocess.DEVNULL, stderr=subprocess.DEVNULL
        )
        os.close(given)
        os.close(answered)
        self.number, self.rest, self.events = 0, b"", []

    def __enter__(self):
        return self

    def __exit__(self, *_):
        os.close(self.sent)
        os.close(self.told)
        self.process.terminate()
        self.process.wait()
        self.folder.cleanup()

    def receive(self):
        """The next message."""
        end = time.monotonic() + SECONDS
        while b"\0" not in self.rest:
            if not select.select([self.told], [], [], max(0, end - time.monotonic()))[0]:
                raise TimeoutError(f"the browser has said nothing for {SECONDS} seconds")
            part = os.read(self.told, 1 << 20)
            if not part:
                raise EOFError("the browser has ended")
            self.rest += part
        message, _, self.rest = self.rest.partition(b"\0")
        return json.loads(message)

    def call(self, method, session=None, **parameters):
        """What a method answers. Events that come before are kept."""
        self.number += 1
        message = {"id": self.number, "method": method, "params": parameters, **({"sessionId": session} if session else {})}
        os.write(self.sent, json.dumps(message).encode() + b"\0")
        while True:
            answer = self.receive()
            if answer.get("id") == self.number:
                if "error" in answer:
                    raise RuntimeError(f"{method}: {answer['error']}")
                return answer["result"]
            self.events.append(answer)

    def open(self, path):
        """The page of a file, in a tab of its own, once it is loaded; and how many seconds that took."""
        self.events.clear()
        target = self.call("Target.createTarget", url="about:blank")["targetId"]
        page = Page(self, target, self.call("Target.attachToTarget", targetId=target, flatten=True)["sessionId"])
        for domain in DOMAINS:
            page.call(f"{domain}.enable")
        begin = time.monotonic()
        page.call("Page.navigate", url=path.as_uri())
        while not page.told("Page.loadEventFired"):
            self.events.append(self.receive())
        page.image()
        return page, time.monotonic() - begin


class Page:
    """A page in a tab. Scripts of this program run in a world of their own, beside those that the page may have."""

    def __init__(self, browser, target, session):
        self.browser, self.target, self.session, self.world = browser, target, session, None

    def call(self, method, **parameters):
        return self.browser.call(method, self.session, **parameters)

    def told(self, method):
        """The parameters of all events of a name."""
        return [event["params"] for event in self.browser.events if event.get("method") == method]

    def close(self):
        self.browser.call("Target.closeTarget", targetId=self.target)

    def ask(self, expression):
        """The value of an expression of JavaScript."""
        if self.world is None:
            frame = self.call("Page.getFrameTree")["frameTree"]["frame"]["id"]
            self.world = self.call("Page.createIsolatedWorld", frameId=frame)["executionContextId"]
        found = self.call("Runtime.evaluate", expression=expression, contextId=self.world, returnByValue=True, awaitPromise=True)
        if "exceptionDetails" in found:
            raise RuntimeError(found["exceptionDetails"])
        return found["result"].get("value")

    def show(self, width, height=1600, is_dark=False, media=""):
        """Sets the size of the window and what it is shown on."""
        self.call("Emulation.setDeviceMetricsOverride", width=width, height=height, deviceScaleFactor=1, mobile=False)
        features = [{"name": "prefers-color-scheme", "value": "dark" if is_dark else "light"}]
        self.call("Emulation.setEmulatedMedia", media=media, features=features)

    def scroll(self, top):
        """Scrolls, and returns where it is once all is drawn there."""
        drawn = "new Promise(done => requestAnimationFrame(() => requestAnimationFrame(() => done(scrollY))))"
        return self.ask(f"scrollTo(0, {top}), {drawn}")

    def image(self):
        """What the window shows, as PNG."""
        return base64.b64decode(self.call("Page.captureScreenshot", format="png")["data"])

    def printed(self):
        """The page on paper, as PDF."""
        return base64.b64decode(self.call("Page.printToPDF", **SHEET)["data"])

"""A headless Chromium, driven by its DevTools protocol over two pipes: what scripts need to open a page and press its keys. Python's
standard library alone."""
import json
import os
import shutil
import subprocess
import tempfile
import time

NAMES = ("chromium", "chromium-browser", "chromium-headless-shell", "google-chrome")
LIMIT = 60  # seconds for an answer


def installed():
    """The browser's file, where one is installed."""
    return next(filter(None, map(shutil.which, NAMES)), None)


class Browser:
    """One browser with one page; it ends with the block in which it stands. `errors` has what the console said of errors."""

    def __init__(self, width=1280, height=720):
        self.size, self.errors, self.last, self.rest = (width, height), [], 0, b""

    def __enter__(self):
        self.folder = tempfile.TemporaryDirectory(ignore_cleanup_errors=True)
        reads, self.writes = os.pipe()
        self.reads, writes = os.pipe()
        words = [installed(), "--headless", "--no-sandbox", "--disable-gpu", "--no-first-run", "--disable-extensions", "--mute-audio",
                 "--hide-scrollbars", "--renderer-process-limit=1", "--remote-debugging-pipe", "--user-data-dir=" + self.folder.name,
                 "--window-size=%d,%d" % self.size, "about:blank"]
        # the browser reads from 3 and writes to 4
        self.process = subprocess.Popen(["sh", "-c", 'exec "$0" "$@" 3<&%d 4>&%d' % (reads, writes), *words], pass_fds=(reads, writes),
                                        stdin=subprocess.DEVNULL, stdout=subprocess.DEVNULL, stderr=subprocess.DEVNULL, start_new_session=True)
        os.close(reads)
        os.close(writes)
        os.set_blocking(self.reads, False)
        self.session = None
        target = next(one for one in self.ask("Target.getTargets")["targetInfos"] if one["type"] == "page")
        self.session = self.ask("Target.attachToTarget", targetId=target["targetId"], flatten=True)["sessionId"]
        for domain in ("Page", "Runtime", "Log"):
            self.ask(domain + ".enable")
        return self

    def __exit__(self, *_):
        try:
            self.session = None
            self.ask("Browser.close")
            self.process.wait(10)
        except (OSError, RuntimeError, subprocess.TimeoutExpired):
            self.process.kill()
            self.process.wait()
        os.close(self.writes)
        os.close(self.reads)
        self.folder.cleanup()

    def ask(self, method, **given):
        """Sends a command and waits for its answer; notes the errors that are told meanwhile."""
        self.last += 1
        message = {"id": self.last, "method": method, "params": given}
        if self.session:
            message["sessionId"] = self.session
        os.write(self.writes, json.dumps(message).encode() + b"\0")
        while True:
            told = self.next()
            if told.get("id") == self.last:
                if "error" in told:
                    raise RuntimeError("%s: %s" % (method, told["error"]))
                return told["result"]
            self.note(told)

    def next(self):
        """The next message."""
        until = time.monotonic() + LIMIT
        while b"\0" not in self.rest:
            try:
                more = os.read(self.reads, 1 << 20)
            except BlockingIOError:
                time.sleep(0.002)
                more = None
            if more == b"" or time.monotonic() > until:
                raise RuntimeError("the browser does not answer")
            self.rest += more or b""
        one, self.rest = self.rest.split(b"\0", 1)
        return json.loads(one)

    def note(self, told):
        method, params = told.get("method"), told.get("params", {})
        if method == "Runtime.exceptionThrown":
            self.errors.append(params["exceptionDetails"].get("exception", {}).get("description", "an exception"))
        elif method == "Runtime.consoleAPICalled" and params["type"] in ("error", "assert"):
            self.errors.append("console: %s" % params["args"])
        elif method == "Log.entryAdded" and params["entry"]["level"] == "error":
            self.errors.append(params["entry"]["text"])
        elif method == "Page.loadEventFired":
            self.is_loaded = True

    def open(self, address):
        """Opens a page anew, and waits until it has run its program."""
        self.ask("Page.navigate", url="about:blank")
        self.is_loaded = False
        self.ask("Page.navigate", url=address)
        while self.run("document.readyState") != "complete" or self.run("location.href") == "about:blank":
            time.sleep(0.01)

    def run(self, words):
        """The value of an expression in the page."""
        found = self.ask("Runtime.evaluate", expression=words, returnByValue=True)
        if "exceptionDetails" in found:
            raise RuntimeError("%s: %s" % (words, found["exceptionDetails"]["exception"].get("description")))
        return found["result"].get("value")

    def press(self, key):
        for kind in ("keyDown", "keyUp"):
            self.ask("Input.dispatchKeyEvent", type=kind, key=key, code="Space" if key == " " else key)

    def resize(self, width, height):
        self.ask("Emulation.setDeviceMetricsOverride", width=width, height=height, deviceScaleFactor=1, mobile=width < 600)

    def picture(self):
        """The page as it stands, as PNG in base64."""
        return self.ask("Page.captureScreenshot", format="png")["data"]

"""Chromium without a window, as test-draw.py asks it: one process shows all pages, one after the other, and answers through pipes."""
import base64
import json
import os
import select
import shutil
import subprocess
import tempfile
import time

# Chromium reads its orders at one descriptor, and writes its answers to another one.
ORDERS, ANSWERS = 3, 4
WORDS = ["--headless", "--no-sandbox", "--disable-gpu", "--remote-debugging-pipe", "about:blank"]
TALL = 900
IS_LOADED = "document.readyState === 'complete' || new Promise(function (done) { addEventListener('load', done); })"


class Browser:
    """A running browser; `longest` is how long it may take for an answer, in seconds. Once it has failed it answers nothing."""

    def __init__(self, program, longest):
        self.longest, self.room, self.number, self.left, self.session, self.is_lost = longest, tempfile.mkdtemp(), 0, b"", None, False
        its_orders, self.orders = os.pipe()
        self.answers, its_answers = os.pipe()

        def connect():
            os.dup2(its_orders, ORDERS)
            os.dup2(its_answers, ANSWERS)
            for end in (ORDERS, ANSWERS):
                os.set_inheritable(end, True)

        how = {"stdin": subprocess.DEVNULL, "stdout": subprocess.DEVNULL, "stderr": subprocess.DEVNULL, "close_fds": False, "preexec_fn": connect}
        self.child = subprocess.Popen([program, f"--user-data-dir={self.room}", *WORDS], **how)
        os.close(its_orders)
        os.close(its_answers)

    def message(self, end):
        """The next message that it writes."""
        while b"\0" not in self.left:
            if not select.select([self.answers], [], [], max(0, end - time.monotonic()))[0]:
                raise TimeoutError
            found = os.read(self.answers, 1 << 20)
            if not found:
                raise EOFError
            self.left += found
        one, self.left = self.left.split(b"\0", 1)
        return json.loads(one)

    def order(self, method, wait_for=None, **words):
        """What it answers to an order; if an event is named, it has come too."""
        end, self.number, answer = time.monotonic() + self.longest, self.number + 1, None
        session = {"sessionId": self.session} if self.session else {}
        os.write(self.orders, json.dumps({"id": self.number, "method": method, "params": words, **session}).encode() + b"\0")
        while answer is None or wait_for:
            found = self.message(end)
            wait_for = None if found.get("method") == wait_for else wait_for
            answer = found if found.get("id") == self.number else answer
        if "result" not in answer:
            raise ValueError(answer)
        return answer["result"]

    def first_page(self):
        """The name of its first page, which is there soon after its start."""
        end = time.monotonic() + self.longest
        while time.monotonic() < end:
            for it in self.order("Target.getTargets")["targetInfos"]:
                if it["type"] == "page":
                    return it["targetId"]
            time.sleep(0.05)
        raise TimeoutError

    def begin(self):
        """Goes to its first page, and waits until that is there."""
        self.session = self.order("Target.attachToTarget", targetId=self.first_page(), flatten=True)["sessionId"]
        self.order("Runtime.evaluate", expression=IS_LOADED, awaitPromise=True)
        self.order("Page.enable")
        # an element gets the focus as in a window that people look at
        self.order("Emulation.setFocusEmulationEnabled", enabled=True)

    def shown(self, page, width, tall, scheme, answer):
        """An answer on a page of this size, for people who prefer the scheme `light` or `dark`; or nothing."""
        if self.is_lost:
            return None
        try:
            if not self.session:
                self.begin()
            self.order("Emulation.setDeviceMetricsOverride", width=width, height=tall, deviceScaleFactor=1, mobile=False)
            self.order("Emulation.setEmulatedMedia", features=[{"name": "prefers-color-scheme", "value": scheme}])
            self.order("Page.navigate", "Page.loadEventFired", url=page)
            return answer()
        except (OSError, EOFError, KeyError, ValueError) as wrong:
            self.is_lost = True
            print(f"the browser failed: {wrong!r}")
            return None

    def ask(self, page, width, scheme, script):
        """The value of a script on a page of this width."""
        return self.shown(page, width, TALL, scheme, lambda: self.order("Runtime.evaluate", expression=script, returnByValue=True)["result"].get("value"))

    def shot(self, page, width, tall, scheme):
        """A page of that size as a PNG."""
        return self.shown(page, width, tall, scheme, lambda: base64.b64decode(self.order("Page.captureScreenshot", format="png")["data"]))

    def end(self):
        """Ends it, and leaves nothing of it."""
        try:
            self.session = None
            self.order("Browser.close")
            self.child.wait(self.longest)
        except (OSError, EOFError, ValueError, subprocess.TimeoutExpired):
            self.child.kill()
            self.child.wait()
        os.close(self.orders)
        os.close(self.answers)
        shutil.rmtree(self.room, ignore_errors=True)

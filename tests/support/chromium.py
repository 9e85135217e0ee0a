"""A browser without a window and its pages, as the checks use them; and Debian's Chromium, driven
over the pipe of its DevTools protocol."""

import base64
import json
import os
import shutil
import subprocess
import tempfile
import threading
import time

from support.program import LIMIT
from support.skipping import Skipped


# The first version that the page says it works in.
FIRST = 95


def found():
    """Chromium, if there is one of these days."""
    path = shutil.which("chromium")
    if not path:
        raise Skipped("chromium: not installed")
    said = subprocess.run(
        [path, "--version"],
        stdout=subprocess.PIPE,
        stderr=subprocess.DEVNULL,
        text=True,
        timeout=LIMIT,
    ).stdout
    version = next((int(word.partition(".")[0]) for word in said.split() if word[:1].isdigit()), 0)
    if version < FIRST:
        raise Skipped("chromium %d: too old (from %d on)" % (version, FIRST))
    return path


class Remote:
    """Calls of a browser, whose answers come in any order. `send` hands on a text."""

    def __init__(self):
        self.number = 0
        self.done, self.events, self.changed = {}, [], threading.Condition()

    def take(self, text):
        """Takes what the browser says; nothing where it has gone."""
        it = json.loads(text) if text else {"id": None}
        with self.changed:
            if "id" in it:
                self.done[it["id"]] = it
            else:
                self.events.append(it)
            self.changed.notify_all()

    def asked(self, what):
        """The answer to a call."""
        with self.changed:
            self.number += 1
            number = self.number
            self.send(json.dumps({"id": number, **what}))
            self.changed.wait_for(lambda: number in self.done or None in self.done, timeout=LIMIT)
            it = self.done.pop(number, None)
        assert it is not None, "%s: the browser did not answer" % what["method"]
        assert "error" not in it, "%s: %s" % (what["method"], it.get("message", it["error"]))
        return it["result"]


class Chromium(Remote):
    """Chromium with pages, gone at the end."""

    name = "chromium"

    def __init__(self):
        super().__init__()
        path = found()
        self.folder = tempfile.TemporaryDirectory(prefix="ymodem-web-", ignore_cleanup_errors=True)
        there, self.words = os.pipe()
        self.answers, here = os.pipe()

        def ends():
            # high numbers first, since one of the pipes may have 3 or 4
            one, two = os.dup(there), os.dup(here)
            os.dup2(one, 3)
            os.dup2(two, 4)

        flags = (
            *(
                "--headless=new",
                "--no-sandbox",
                "--disable-gpu",
                "--disable-dev-shm-usage",
                "--no-first-run",
                "--hide-scrollbars",
                "--remote-debugging-pipe",
            ),
            # each page counts as the one that is looked at
            *(
                "--disable-background-timer-throttling",
                "--disable-renderer-backgrounding",
                "--disable-backgrounding-occluded-windows",
            ),
        )
        self.child = subprocess.Popen(
            [path, *flags, "--user-data-dir=" + self.folder.name, "about:blank"],
            stdin=subprocess.DEVNULL,
            stdout=subprocess.DEVNULL,
            stderr=subprocess.DEVNULL,
            preexec_fn=ends,
            close_fds=False,
        )
        os.close(there)
        os.close(here)
        threading.Thread(target=self.listen, daemon=True).start()

    def listen(self):
        held = b""
        while came := os.read(self.answers, 1 << 20):
            *texts, held = (held + came).split(b"\0")
            for text in texts:
                self.take(text)
        self.take(None)

    def send(self, text):
        left = text.encode() + b"\0"
        while left:
            left = left[os.write(self.words, left) :]

    def call(self, method, session=None, **what):
        where = {"sessionId": session} if session else {}
        return self.asked({"method": method, "params": what, **where})

    def storage(self):
        """A place where pages keep what they remember."""
        return self.call("Target.createBrowserContext")["browserContextId"]

    def page(self, address, before="", storage=None, **size):
        """A new page, with a script that runs before its own. It shares what it remembers with the
        pages of the same storage alone."""
        return ChromiumPage(self, address, before, storage or self.storage(), **size)

    def close(self):
        self.child.terminate()
        try:
            self.child.wait(timeout=20)
        except subprocess.TimeoutExpired:
            self.child.kill()
            self.child.wait()
        os.close(self.words)
        self.folder.cleanup()


class Page:
    """A page of a browser: what each browser does in its own way stands below."""

    def until(self, script, limit=int(os.environ.get("YM_LIMIT", LIMIT))):
        """Waits until an expression holds."""
        end = time.monotonic() + limit
        while True:
            try:
                if self.run(script):
                    return
            except AssertionError as fault:
                # the page is being loaded
                if "navigated" not in str(fault) and "context" not in str(fault):
                    raise
            assert time.monotonic() <= end, "the page never came to: " + script
            time.sleep(0.05)

    def until_loaded(self):
        self.until("document.readyState === 'complete' && location.href !== 'about:blank'")


class ChromiumPage(Page):
    """A page of Chromium."""

    def __init__(self, browser, address, before, storage, width=1180, height=900):
        self.browser, self.storage = browser, storage
        where = {"browserContextId": storage, "newWindow": True}
        self.target = browser.call("Target.createTarget", url="about:blank", **where)["targetId"]
        self.session = browser.call("Target.attachToTarget", targetId=self.target, flatten=True)[
            "sessionId"
        ]
        for domain in ("Page", "Runtime", "Log", "DOM"):
            self.call(domain + ".enable")
        self.size(width, height)
        if before:
            self.call("Page.addScriptToEvaluateOnNewDocument", source=before)
        self.call("Page.navigate", url=address)
        self.until_loaded()

    def call(self, method, **what):
        return self.browser.call(method, self.session, **what)

    def size(self, width, height):
        self.call(
            "Emulation.setDeviceMetricsOverride",
            width=width,
            height=height,
            deviceScaleFactor=1,
            mobile=False,
        )

    def scheme(self, name):
        self.call(
            "Emulation.setEmulatedMedia", features=[{"name": "prefers-color-scheme", "value": name}]
        )

    def run(self, script):
        """The value of an expression, waited for where it is a promise."""
        it = self.call(
            "Runtime.evaluate",
            expression=script,
            awaitPromise=True,
            returnByValue=True,
            userGesture=True,
        )
        if "exceptionDetails" in it:
            details = it["exceptionDetails"]
            raise AssertionError(
                "in the page: " + details.get("exception", {}).get("description", details["text"])
            )
        return it["result"].get("value")

    def give(self, selector, paths):
        """Puts files into an input."""
        root = self.call("DOM.getDocument")["root"]["nodeId"]
        node = self.call("DOM.querySelector", nodeId=root, selector=selector)["nodeId"]
        self.call("DOM.setFileInputFiles", nodeId=node, files=list(paths))

    def drop(self, selector, paths):
        """Drops these at the middle of what stands there, as somebody does from a file manager."""
        script = """(() => {
          const it = document.querySelector(%s).getBoundingClientRect();
          return [it.x + it.width / 2, it.y + it.height / 2];
        })()"""
        x, y = self.run(script % json.dumps(selector))
        data = {"items": [], "files": list(paths), "dragOperationsMask": 1}
        for kind in ("dragEnter", "dragOver", "drop"):
            self.call("Input.dispatchDragEvent", type=kind, x=x, y=y, data=data)

    def key(self, key):
        """Presses a key: a sign, or one that has a name."""
        numbers = {"Tab": 9, "Enter": 13, "ArrowDown": 40}
        number = numbers.get(key, ord(key[0].upper()))
        what = {"key": key, "code": key, "windowsVirtualKeyCode": number}
        text = {"Enter": "\r"}.get(key, key if len(key) == 1 else "")
        down = {"text": text} if text else {}
        self.call("Input.dispatchKeyEvent", type="keyDown", **what, **down)
        self.call("Input.dispatchKeyEvent", type="keyUp", **what)

    def front(self):
        """Puts the page before all others."""
        self.call("Page.bringToFront")

    def downloads_into(self, folder):
        """Where the browser keeps what is saved from now on."""
        where = {"behavior": "allow", "downloadPath": folder, "browserContextId": self.storage}
        self.browser.call("Browser.setDownloadBehavior", **where)

    def picture(self, path, whole=True):
        """A screenshot, of the whole page."""
        more = {}
        if whole:
            size = self.call("Page.getLayoutMetrics")["cssContentSize"]
            more["clip"] = {
                "x": 0,
                "y": 0,
                "width": size["width"],
                "height": size["height"],
                "scale": 1,
            }
            more["captureBeyondViewport"] = True
        data = self.call("Page.captureScreenshot", format="png", **more)["data"]
        with open(path, "wb") as it:
            it.write(base64.b64decode(data))

    def complaints(self):
        """What the page said to its console, or the browser of it."""
        said = []
        for it in list(self.browser.events):
            if it.get("sessionId") != self.session:
                continue
            what = it["params"]
            if it["method"] == "Runtime.exceptionThrown":
                said.append(
                    what["exceptionDetails"]
                    .get("exception", {})
                    .get("description", what["exceptionDetails"]["text"])
                )
            elif it["method"] == "Log.entryAdded" and what["entry"]["level"] == "error":
                said.append(what["entry"]["text"])
            elif it["method"] == "Runtime.consoleAPICalled" and what["type"] == "error":
                said.append(str([arg.get("value", arg.get("description")) for arg in what["args"]]))
        return said

    def close(self):
        self.browser.call("Target.closeTarget", targetId=self.target)

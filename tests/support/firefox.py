"""Debian's Firefox without a window, driven by WebDriver BiDi over a WebSocket."""

import base64
import itertools
import json
import os
import shutil
import socket
import struct
import subprocess
import tempfile
import threading
import time

from support.bridge import CLOSE, PING, PONG, framed
from support.chromium import Page, Remote
from support.program import LIMIT
from support.skipping import Skipped


# No window, no news, no updates, and nothing that asks the person; pages count as looked at.
PREFERENCES = {
    "app.update.disabledForTesting": True,
    "browser.aboutwelcome.enabled": False,
    "browser.download.alwaysOpenPanel": False,
    "browser.download.folderList": 2,
    "browser.download.useDownloadDir": True,
    "browser.shell.checkDefaultBrowser": False,
    "browser.startup.page": 0,
    "datareporting.policy.dataSubmissionEnabled": False,
    "dom.min_background_timeout_value": 4,
    "dom.timeout.enable_budget_timer_throttling": False,
    "network.captive-portal-service.enabled": False,
    "network.connectivity-service.enabled": False,
    "services.settings.server": "data:,#remote-settings-dummy/v1",
    "toolkit.telemetry.reportingpolicy.firstRun": False,
    "widget.windows.window_occlusion_tracking.enabled": False,
}
# Where it tells its address once it listens.
TOLD = "WebDriverBiDiServer.json"
# The keys of WebDriver that are no signs.
KEYS = {"Tab": "\ue004", "Enter": "\ue007", "ArrowDown": "\ue015"}


# The value of an expression, or what it throws: Firefox tells an exception with a stack alone.
RUN = """(async () => {
  try {
    return JSON.stringify([(await (
      %s
    )) ?? null]);
  } catch (fault) {
    return JSON.stringify(String(fault));
  }
})()"""


class Socket:
    """The near end of a WebSocket, for texts."""

    def __init__(self, host, port, path):
        self.end = socket.create_connection((host, port), timeout=LIMIT)
        key = base64.b64encode(os.urandom(16)).decode()
        lines = (
            "GET %s HTTP/1.1" % path,
            "Host: %s:%d" % (host, port),
            "Upgrade: websocket",
            "Connection: Upgrade",
            "Sec-WebSocket-Key: " + key,
            "Sec-WebSocket-Version: 13",
        )
        self.end.sendall(("\r\n".join(lines) + "\r\n\r\n").encode())
        self.held = b""
        while b"\r\n\r\n" not in self.held:
            self.held += self.more()
        answer, _, self.held = self.held.partition(b"\r\n\r\n")
        assert b" 101 " in answer.split(b"\r\n")[0], "firefox: " + answer.decode(errors="replace")
        self.end.settimeout(None)

    def more(self):
        came = self.end.recv(1 << 20)
        if not came:
            raise ConnectionError("firefox has closed the line")
        return came

    def exactly(self, count):
        pieces, left = [], count
        while left > 0:
            piece, self.held = (self.held or self.more()), b""
            piece, self.held = piece[:left], piece[left:]
            pieces.append(piece)
            left -= len(piece)
        return b"".join(pieces)

    def frame(self):
        first, size = self.exactly(2)
        if size == 126:
            size = struct.unpack("!H", self.exactly(2))[0]
        elif size == 127:
            size = struct.unpack("!Q", self.exactly(8))[0]
        return first & 0x80, first & 15, self.exactly(size)

    def text(self):
        """The next text; nothing where the browser closes."""
        text = b""
        while True:
            is_last, kind, data = self.frame()
            if kind == CLOSE:
                return None
            if kind == PING:
                self.send(data, PONG)
            elif kind != PONG:
                text += data
                if is_last:
                    return text

    def send(self, data, kind=1):
        # a frame as a server sends it, but masked
        plain = framed(data, kind)
        head = bytearray(plain[: len(plain) - len(data)])
        head[1] |= 0x80
        key = os.urandom(4)
        masked = bytes(one ^ other for one, other in zip(data, itertools.cycle(key)))
        self.end.sendall(bytes(head) + key + masked)


class Firefox(Remote):
    """Firefox with pages, gone at the end."""

    name = "firefox"

    def __init__(self):
        super().__init__()
        path = shutil.which("firefox-esr") or shutil.which("firefox")
        if not path:
            raise Skipped("firefox-esr: not installed")
        self.folder = tempfile.TemporaryDirectory(prefix="ymodem-web-", ignore_cleanup_errors=True)
        self.saved = os.path.join(self.folder.name, "saved")
        os.mkdir(self.saved)
        with open(os.path.join(self.folder.name, "user.js"), "w", encoding="utf-8") as it:
            for name, value in {**PREFERENCES, "browser.download.dir": self.saved}.items():
                it.write("user_pref(%s, %s);\n" % (json.dumps(name), json.dumps(value)))
        flags = ("--headless", "--no-remote", "--remote-debugging-port=0")
        system = ("--remote-allow-system-access", "--profile", self.folder.name)
        self.child = subprocess.Popen(
            [path, *flags, *system],
            stdin=subprocess.DEVNULL,
            stdout=subprocess.DEVNULL,
            stderr=subprocess.DEVNULL,
            env={**os.environ, "HOME": self.folder.name, "MOZ_HEADLESS": "1"},
        )
        try:
            self.socket = Socket(*self.address(), "/session")
            threading.Thread(target=self.listen, daemon=True).start()
            self.call("session.new", capabilities={})
            self.call("session.subscribe", events=["log.entryAdded"])
        except BaseException:
            self.close()
            raise

    def address(self):
        """Where it listens, which it tells in a file."""
        end, path = time.monotonic() + LIMIT, os.path.join(self.folder.name, TOLD)
        while time.monotonic() < end and self.child.poll() is None:
            try:
                with open(path, encoding="utf-8") as it:
                    told = json.load(it)
                return told["ws_host"], told["ws_port"]
            except (FileNotFoundError, ValueError):
                time.sleep(0.05)
        raise AssertionError("firefox does not tell where it listens")

    def listen(self):
        try:
            while text := self.socket.text():
                self.take(text)
        except OSError:
            pass  # it has gone
        self.take(None)

    def send(self, text):
        self.socket.send(text.encode())

    def call(self, method, **what):
        return self.asked({"method": method, "params": what})

    def storage(self):
        """A place where pages keep what they remember."""
        return self.call("browser.createUserContext")["userContext"]

    def page(self, address, before="", storage=None, **size):
        """A new page, with a script that runs before its own. It shares what it remembers with the
        pages of the same storage alone."""
        return FirefoxPage(self, address, before, storage or self.storage(), **size)

    def close(self):
        self.child.terminate()
        try:
            self.child.wait(timeout=20)
        except subprocess.TimeoutExpired:
            self.child.kill()
            self.child.wait()
        self.folder.cleanup()


class FirefoxPage(Page):
    """A page of Firefox."""

    def __init__(self, browser, address, before, storage, width=1180, height=900):
        self.browser, self.storage = browser, storage
        where = {"type": "window", "userContext": storage}
        self.context = browser.call("browsingContext.create", **where)["context"]
        self.size(width, height)
        if before:
            script = "() => {\n%s\n}" % before
            where = {"functionDeclaration": script, "contexts": [self.context]}
            browser.call("script.addPreloadScript", **where)
        self.call("browsingContext.navigate", url=address, wait="complete")
        self.until_loaded()

    def call(self, method, **what):
        return self.browser.call(method, context=self.context, **what)

    def size(self, width, height):
        self.call("browsingContext.setViewport", viewport={"width": width, "height": height})

    def scheme(self, name):
        """Light or dark, of this page alone: as the tools of the browser itself set it."""
        own = self.browser.call("browsingContext.getTree", root=self.context)["contexts"][0]
        all_of_it = self.browser.call("browsingContext.getTree", **{"moz:scope": "chrome"})
        window = own["clientWindow"]
        chrome = next(it for it in all_of_it["contexts"] if it["clientWindow"] == window)
        script = "gBrowser.selectedBrowser.browsingContext.prefersColorSchemeOverride = %s"
        self.evaluate(script % json.dumps(name), chrome["context"])

    def evaluate(self, script, context):
        it = self.browser.call(
            "script.evaluate",
            expression=script,
            target={"context": context},
            awaitPromise=True,
            userActivation=True,
        )
        assert it["type"] != "exception", "in the page: " + it["exceptionDetails"]["text"]
        return it["result"].get("value")

    def run(self, script):
        """The value of an expression, waited for where it is a promise."""
        told = json.loads(self.evaluate(RUN % script, self.context))
        assert not isinstance(told, str), "in the page: " + told
        return told[0]

    def give(self, selector, paths):
        """Puts files into an input."""
        where = {"type": "css", "value": selector}
        node = self.call("browsingContext.locateNodes", locator=where)["nodes"][0]
        element = {"sharedId": node["sharedId"]}
        self.call("input.setFiles", element=element, files=list(paths))

    def key(self, key):
        """Presses a key: a sign, or one that has a name."""
        value = KEYS.get(key, key)
        presses = [{"type": kind, "value": value} for kind in ("keyDown", "keyUp")]
        keys = {"type": "key", "id": "keys", "actions": presses}
        self.call("input.performActions", actions=[keys])

    def front(self):
        """Puts the page before all others."""
        self.call("browsingContext.activate")

    def downloads_into(self, folder):
        """Where the browser keeps what is saved from now on."""
        behaviour = {"type": "allowed", "destinationFolder": folder}
        where = {"downloadBehavior": behaviour, "userContexts": [self.storage]}
        self.browser.call("browser.setDownloadBehavior", **where)

    def picture(self, path, whole=True):
        """A screenshot, of the whole page."""
        origin = "document" if whole else "viewport"
        data = self.call("browsingContext.captureScreenshot", origin=origin)["data"]
        with open(path, "wb") as it:
            it.write(base64.b64decode(data))

    def complaints(self):
        """What the page said to its console, or the browser of it."""
        said = [it["params"] for it in list(self.browser.events)]
        mine = [it for it in said if it["source"].get("context") == self.context]
        return [str(it["text"]) for it in mine if it["level"] == "error"]

    def close(self):
        self.call("browsingContext.close")

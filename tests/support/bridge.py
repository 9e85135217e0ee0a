"""A WebSocket in front of a socket, as websockify offers one; and a server of files."""

import base64
import functools
import hashlib
import http.server
import os
import select
import socket
import struct
import threading

from support.program import LIMIT


KEY = b"258EAFA5-E914-47DA-95CA-C5AB0DC85B11"
BYTES, CLOSE, PING, PONG = 2, 8, 9, 10


def framed(data, kind=BYTES):
    size = len(data)
    if size < 126:
        return struct.pack("!BB", 0x80 | kind, size) + data
    if size < 65536:
        return struct.pack("!BBH", 0x80 | kind, 126, size) + data
    return struct.pack("!BBQ", 0x80 | kind, 127, size) + data


def unframed(held):
    """The first frame of these bytes, as its kind, its data and the rest; or None."""
    if len(held) < 2:
        return None
    kind, size, at = held[0] & 15, held[1] & 127, 2
    if size == 126:
        size, at = int.from_bytes(held[2:4], "big"), 4
    elif size == 127:
        size, at = int.from_bytes(held[2:10], "big"), 10
    end = at + 4 + size
    if len(held) < end:
        return None
    mask = held[at : at + 4] * (size // 4 + 1)
    data = (
        int.from_bytes(held[at + 4 : end], "big") ^ int.from_bytes(mask[:size], "big")
    ).to_bytes(size, "big")
    return kind, data, held[end:]


def accept(listener):
    """The next WebSocket that is opened there."""
    while True:
        here, _ = listener.accept()
        here.setsockopt(socket.IPPROTO_TCP, socket.TCP_NODELAY, 1)
        here.settimeout(LIMIT)
        asked = b""
        while not asked.endswith(b"\r\n\r\n"):
            came = here.recv(4096)
            if not came:
                break
            asked += came
        key = next(
            (
                line.split(b":", 1)[1].strip()
                for line in asked.split(b"\r\n")
                if line.lower().startswith(b"sec-websocket-key:")
            ),
            None,
        )
        if key is None:
            here.close()
            continue
        answer = base64.b64encode(hashlib.sha1(key + KEY).digest())
        # Without a time for each call, which would be a call of the system more.
        here.settimeout(None)
        here.sendall(
            b"HTTP/1.1 101 Switching Protocols\r\nUpgrade: websocket\r\nConnection:"
            b" Upgrade\r\nSec-WebSocket-Accept: "
            + answer
            + b"\r\n\r\n"
        )
        return here


class Bridge(threading.Thread):
    """Carries one WebSocket to the socket that `far` gives, and back, until either is closed or
    `is_cut` is set. `damage` makes of each piece what goes on."""

    def __init__(self, far, damage=None):
        super().__init__(daemon=True)
        self.far = far
        self.damage = damage or (lambda data: data)
        self.listener = socket.create_server(("127.0.0.1", 0))
        self.listener.settimeout(LIMIT)
        self.port = self.listener.getsockname()[1]
        self.address = "ws://127.0.0.1:%d" % self.port
        self.is_cut = threading.Event()
        self.carried = 0
        self.fault = None
        self.start()

    def run(self):
        try:
            with self.listener, accept(self.listener) as here, self.far() as there:
                if there.family in (socket.AF_INET, socket.AF_INET6):
                    there.setsockopt(socket.IPPROTO_TCP, socket.TCP_NODELAY, 1)
                self.carry(here, there)
        except Exception as fault:  # the check that looks at it fails
            self.fault = fault

    def carry(self, here, there):
        held, far = b"", there.fileno()
        ready = select.poll()
        for it in (here, there):
            ready.register(it, select.POLLIN)
        while not self.is_cut.is_set():
            for number, _ in ready.poll(100):
                if number == far:
                    came = read(there)
                    if not came:
                        hand(here, framed(b"", CLOSE))
                        return
                    self.carried += len(came)
                    hand(here, framed(self.damage(came)))
                    continue
                came = read(here)
                if not came:
                    return
                held += came
                while (it := unframed(held)) is not None:
                    kind, data, held = it
                    if kind == CLOSE:
                        hand(here, framed(data, CLOSE))
                        return
                    if kind == PING:
                        hand(here, framed(data, PONG))
                    else:
                        self.carried += len(data)
                        hand(there, self.damage(data))


def read(end):
    try:
        return end.recv(65536)
    except (ConnectionResetError, OSError):
        return b""


def hand(end, data):
    try:
        end.sendall(data)
    except OSError:
        pass  # it has ended; what it says tells why


class Files(http.server.SimpleHTTPRequestHandler):
    """Files of a folder, and a page without anything at /empty."""

    extensions_map = {
        **http.server.SimpleHTTPRequestHandler.extensions_map,
        ".js": "text/javascript",
        ".wasm": "application/wasm",
    }

    def do_GET(self):
        if self.path != "/empty":
            return super().do_GET()
        self.send_response(200)
        self.send_header("Content-Type", "text/html")
        self.end_headers()
        self.wfile.write(b"<!doctype html><title>empty</title>")

    def log_message(self, *_):
        pass


def serve(folder):
    """A server of this folder's files; its address."""
    server = http.server.ThreadingHTTPServer(
        ("127.0.0.1", 0), functools.partial(Files, directory=os.path.abspath(folder))
    )
    threading.Thread(target=server.serve_forever, daemon=True).start()
    return "http://127.0.0.1:%d" % server.server_port

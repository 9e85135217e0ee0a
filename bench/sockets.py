#!/usr/bin/env python3
"""Measures `ymodem send` to `ymodem receive` over a loopback connection: time, instructions, system calls and peak memory.

Times are the best of three, from the moment at which the receiver has made NAME.part to the one at which NAME is there, since a receiver
calls only after it has waited three seconds. They are to be read as ratios to bench/pingpong.c, a stop and wait with nothing else in it
that is run in turns with the program: with its check byte by byte, with slicing by eight, and with no check, which is the floor. It leaves
the file to the system, so the program is timed with `--no-sync`, which does, and beside that as it is, where the file is on the disk
before its last EOT is acknowledged and the time of the disk counts. What one left for the disk is written before the next begins. Where
`sb` and `rb` of lrzsz are installed, they send the same file to each other over two pipes, from the moment at which `rb` has made the file
to the one at which it has all its bytes; about a second of that is waits of their own. Instructions (callgrind) and system calls (strace)
are differences between two sizes, so that what does not grow with the file is left out. As many files as the protocol allows, each empty,
go where 64 descriptors are allowed at either end: time, peak memory and descriptors. Figures, not promises.

usage: bench/sockets.py [PROGRAM]     (default: the environment variable YMODEM, else crates/ymodem/out/ymodem)
"""

import ctypes
import os
import random
import re
import resource
import shutil
import struct
import subprocess
import sys
import tempfile
import threading
import time

HERE = os.path.dirname(os.path.abspath(__file__))
DEFAULT = os.environ.get("YMODEM", os.path.join(HERE, "..", "crates", "ymodem", "out", "ymodem"))
PROGRAM = sys.argv[1] if len(sys.argv) > 1 else DEFAULT
MIB = 1 << 20
BLOCKS_PER_MIB = 1024
SIZES = (1, 16, 64)
PROGRAMS = {"--no-sync": ["--no-sync"], "to the disk": []}
CHECKS = {"bytes": "C, by bytes", "slices": "C, by slices", "none": "C, no check"}
TURNS = 3
PORTS = iter(random.Random(os.getpid()).sample(range(20000, 32000), 500))
NAME = "file"
# The most files of a batch, and the descriptors that an end may have open while it sends or takes them.
MOST_FILES, DESCRIPTORS = 65_535, 64
IN_CREATE = 0x100
C = ctypes.CDLL(None, use_errno=True)


class Folder:
    """Tells when a name appears in a folder."""

    def __init__(self, folder):
        self.end = C.inotify_init()
        if C.inotify_add_watch(self.end, folder.encode(), IN_CREATE) < 0:
            sys.exit("the folder %s cannot be watched" % folder)
        self.seen = {}
        threading.Thread(target=self.watch, daemon=True).start()

    def watch(self):
        while True:
            data = os.read(self.end, 4096)
            now = time.monotonic()
            while data:
                length = struct.unpack_from("iIII", data)[3]
                self.seen.setdefault(data[16 : 16 + length].rstrip(b"\0").decode(), now)
                data = data[16 + length :]
            if NAME in self.seen:
                os.close(self.end)
                return


def listens(port):
    wanted = ":%04X" % port
    with open("/proc/net/tcp") as it:
        return any(line.split()[1].endswith(wanted) and line.split()[3] == "0A" for line in it.readlines()[1:])


def peak_of(pid, found):
    """Keeps the largest resident set that a process had, in KiB, for as long as it runs."""
    try:
        while True:
            with open("/proc/%d/status" % pid) as it:
                told = re.search(r"VmHWM:\s+(\d+)", it.read())
            if not told:
                return
            found[pid] = int(told[1])
            time.sleep(0.02)
    except (FileNotFoundError, ProcessLookupError):
        pass


def transfer(path, folder, send_tool=(), receive_tool=(), flags=()):
    """Sends a file. Gives the seconds from NAME.part to NAME, both peaks in KiB, and what both ends wrote to standard error."""
    port = next(PORTS)
    watch = Folder(folder)
    how = {"stdout": subprocess.PIPE, "stderr": subprocess.PIPE}
    receiver = subprocess.Popen([*receive_tool, PROGRAM, "receive", "--port", str(port), *flags, folder], **how)
    while not listens(port):
        if receiver.poll() is not None:
            sys.exit("receive said: " + receiver.stderr.read().decode())
        time.sleep(0.02)
    sender = subprocess.Popen([*send_tool, PROGRAM, "send", "--port", str(port), path], **how)
    peaks = {}
    for child in (sender, receiver):
        threading.Thread(target=peak_of, args=(child.pid, peaks), daemon=True).start()
    said = [child.communicate()[1].decode() for child in (sender, receiver)]
    if sender.returncode or receiver.returncode:
        sys.exit("the transfer failed: " + "; ".join(said))
    stored = os.path.join(folder, NAME)
    if os.path.getsize(stored) != os.path.getsize(path):
        sys.exit("the stored file has another length")
    while NAME not in watch.seen:
        time.sleep(0.001)
    os.remove(stored)
    return watch.seen[NAME] - watch.seen[NAME + ".part"], [peaks.get(it.pid, 0) for it in (sender, receiver)], said


def make_file(folder, mib):
    path = os.path.join(folder, NAME)
    with open(path, "wb") as it:
        for _ in range(mib):
            it.write(os.urandom(MIB))
    return path


def compiled(folder):
    if not shutil.which("cc"):
        return None
    made = os.path.join(folder, "pingpong")
    subprocess.run(["cc", "-O2", "-o", made, os.path.join(HERE, "pingpong.c")], check=True)
    return made


def lrzsz(path, folder):
    """The seconds that `sb` to `rb` take over two pipes, or None."""
    if not (shutil.which("sb") and shutil.which("rb")):
        return None
    there, back = os.pipe(), os.pipe()
    watch = Folder(folder)
    receiver = subprocess.Popen(["rb", "-q", "-y"], cwd=folder, stdin=there[0], stdout=back[1], stderr=subprocess.DEVNULL)
    sender = subprocess.Popen(["sb", "-q", "-k", path], stdin=back[0], stdout=there[1], stderr=subprocess.DEVNULL)
    for end in there + back:
        os.close(end)
    stored = os.path.join(folder, NAME)
    while receiver.poll() is None and not (os.path.exists(stored) and os.path.getsize(stored) >= os.path.getsize(path)):
        time.sleep(0.001)
    ended = time.monotonic()
    failed = sender.wait() or receiver.wait()
    if failed or os.path.getsize(stored) != os.path.getsize(path):
        return None
    os.remove(stored)
    return ended - watch.seen[NAME]


def turn(path, there, pingpong):
    """One turn of everything: the seconds of each by name, and the peaks of the program's ends."""
    took, peaks = {}, []
    for name, flags in PROGRAMS.items():
        os.sync()
        seconds, peaks, _ = transfer(path, there, flags=flags)
        took[name] = seconds
    if pingpong:
        for word, name in CHECKS.items():
            os.sync()
            took[name] = float(subprocess.check_output([pingpong, word, path, os.path.join(there, "other")]))
    os.sync()
    other = lrzsz(path, there)
    if other is not None:
        took["sb to rb"] = other
    return took, peaks


def times(here, there, pingpong):
    for mib in SIZES:
        path = make_file(here, mib)
        turns = [turn(path, there, pingpong) for _ in range(TURNS)]
        best = {name: min(took[name] for took, _ in turns if name in took) for took, _ in turns for name in took}
        peak = ["%.1f MiB" % (max(it) / 1024) for it in zip(*(peaks for _, peaks in turns))]
        told = ", ".join("%.4f s/MiB %s" % (best[name] / mib, name) for name in PROGRAMS)
        print("%d MiB: send to receive %s; peak of send %s, of receive %s" % (mib, told, *peak))
        for name, seconds in best.items():
            if name not in PROGRAMS:
                ratios = ", ".join("%.2f %s" % (best[it] / seconds, it) for it in PROGRAMS)
                print("    %-12s %.4f s/MiB, ratio of the program to it %s" % (name, seconds / mib, ratios))
        if not pingpong:
            print("    no cc: not compared")


def instructions(here, there):
    if not shutil.which("valgrind"):
        print("instructions: not counted (no valgrind)")
        return
    tool = ["valgrind", "--tool=callgrind", "--callgrind-out-file=/dev/null"]
    counted = {}
    for mib in (1, 3):
        path = make_file(here, mib)
        for end, tools in (("send", (tool, ())), ("receive", ((), tool))):
            said = "".join(transfer(path, there, *tools)[2])
            counted[end, mib] = int(re.search(r"Collected : (\d+)", said)[1])
    for end in ("send", "receive"):
        each = (counted[end, 3] - counted[end, 1]) / 2
        print("instructions of %-8s %12.0f per MiB, %5.2f per byte" % (end, each, each / MIB))


def system_calls(here, there):
    if not shutil.which("strace"):
        print("system calls: not counted (no strace)")
        return
    counted = {}
    log = os.path.join(here, "calls")
    for mib in (1, 3):
        path = make_file(here, mib)
        tool = ["strace", "-c", "-f", "-o", log]
        for end, tools in (("send", (tool, ())), ("receive", ((), tool))):
            transfer(path, there, *tools)
            with open(log) as it:
                rows = [line.split() for line in it]
            counted[end, mib] = {row[-1]: int(row[3]) for row in rows if len(row) > 4 and row[3].isdigit()}
    for end in ("send", "receive"):
        most, least = counted[end, 3], counted[end, 1]
        each = {name: (most[name] - least.get(name, 0)) / (2 * BLOCKS_PER_MIB) for name in most}
        names = ", ".join("%s %.2f" % it for it in sorted(each.items(), key=lambda it: -it[1]) if it[1] > 0.005 and it[0] != "total")
        print("system calls of %-8s %5.2f per block (%s)" % (end, each["total"], names))


def most_open(pid, found):
    """Keeps how many descriptors a process had open at most, as far as looks at it tell, for as long as it runs."""
    try:
        while True:
            found[pid] = max(found.get(pid, 0), len(os.listdir("/proc/%d/fd" % pid)))
            time.sleep(0.005)
    except (FileNotFoundError, ProcessLookupError, PermissionError):
        pass


def many_files(top, flags):
    """A batch of as many files as there may be, all of them empty."""
    here, there = os.path.join(top, "many"), os.path.join(top, "stored")
    os.mkdir(here)
    os.mkdir(there)
    names = ["%x" % number for number in range(MOST_FILES)]
    for name in names:
        open(os.path.join(here, name), "w").close()
    port = next(PORTS)

    def start(folder, *words):
        allowed = lambda: resource.setrlimit(resource.RLIMIT_NOFILE, (DESCRIPTORS, DESCRIPTORS))
        return subprocess.Popen([PROGRAM, *words], cwd=folder, preexec_fn=allowed, stdout=subprocess.PIPE, stderr=subprocess.PIPE)

    receiver = start(there, "receive", "--port", str(port), *flags, ".")
    while not listens(port):
        if receiver.poll() is not None:
            sys.exit("receive said: " + receiver.stderr.read().decode())
        time.sleep(0.02)
    began = time.monotonic()
    sender = start(here, "send", "--port", str(port), *names)
    peaks, descriptors = {}, {}
    for child in (sender, receiver):
        for look, found in ((peak_of, peaks), (most_open, descriptors)):
            threading.Thread(target=look, args=(child.pid, found), daemon=True).start()
    heard = threading.Thread(target=receiver.communicate, daemon=True)
    heard.start()
    told = sender.communicate()[0].decode()
    took = time.monotonic() - began
    heard.join()
    if sender.returncode or receiver.returncode or told != "sender done %d finished\n" % MOST_FILES or len(os.listdir(there)) != MOST_FILES:
        sys.exit("the batch of %d files failed: %s" % (MOST_FILES, told))
    each = ["%.1f MiB and %d descriptors" % (peaks[it.pid] / 1024, descriptors[it.pid]) for it in (sender, receiver)]
    print("%d empty files%s: %.1f s; send had %s at most, receive %s" % (MOST_FILES, "".join(" " + it for it in flags), took, *each))
    shutil.rmtree(here)
    shutil.rmtree(there)


def main():
    with tempfile.TemporaryDirectory(prefix="ymodem-bench-") as top:
        here, there = os.path.join(top, "here"), os.path.join(top, "there")
        os.mkdir(here)
        os.mkdir(there)
        times(here, there, compiled(top))
        instructions(here, there)
        system_calls(here, there)
        for flags in ([], ["--no-sync"]):
            many_files(top, flags)


main()

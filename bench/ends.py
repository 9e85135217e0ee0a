#!/usr/bin/env python3
"""Measures both ends alone, in memory: instructions per block, and bytes per second; and the check beside what gcc -O2 makes of slicing by eight
(slices.c), in turns.

The measuring program is ends.rt.in beside this file. It is built, proved like any other, in a scratch copy of the libraries, so that the
repository has no crate for it. Instructions are callgrind's, the difference of two runs, so that what a run does once does not count.

usage: bench/ends.py
"""

import os
import re
import shutil
import subprocess
import sys
import tempfile
import time

HERE = os.path.dirname(os.path.abspath(__file__))
ROOT = os.path.dirname(HERE)
LIBRARIES = ["ym_frame", "ym_header", "ym_file", "ym_machine", "ym_core", "ym_link"]
SIZES = {"short": 128, "long": 1024}
WORK = {
    "send": "sender: plan, fill, frame; `hear` of an ACK",
    "whole": "receiver: `heard` of a delivery, `hear`",
    "fed": "receiver: `feed`, `hear`",
    "feed": "`feed` alone",
    "check": "`check16` alone",
}


def build(folder):
    """Builds the program over a copy of the libraries. Gives its path."""
    crate = os.path.join(folder, "crates", "measure")
    os.makedirs(os.path.join(crate, "src"))
    for kind in ("specs", "proofs"):
        os.makedirs(os.path.join(crate, kind))
        open(os.path.join(crate, kind, "Lib.antt"), "w").close()
    shutil.copy(os.path.join(HERE, "ends.rt.in"), os.path.join(crate, "src", "main.rt"))
    for name in LIBRARIES:
        shutil.copytree(os.path.join(ROOT, "crates", name), os.path.join(folder, "crates", name))
    shutil.copy(os.path.join(ROOT, "HANDLES"), folder)
    with open(os.path.join(ROOT, "crates.txt")) as listed, open(os.path.join(folder, "crates.txt"), "w") as copy:
        copy.writelines(line for line in listed if line.split(":")[0].strip() in LIBRARIES)
        copy.write("measure: ym_frame ym_header ym_file ym_machine ym_core ym_link\n")
    built = subprocess.run(["rt", "run", "--", "send", "short", "1"], cwd=crate, stdout=subprocess.PIPE, stderr=subprocess.STDOUT, check=False)
    program = os.path.join(crate, "out", "measure")
    if not os.path.exists(program):
        sys.exit(built.stdout.decode())
    return program


def instructions(program, work, size, blocks):
    """The instructions of a run over so many blocks."""
    told = subprocess.run(
        ["valgrind", "--tool=callgrind", "--callgrind-out-file=/dev/null", program, work, size, str(blocks)],
        stdout=subprocess.DEVNULL, stderr=subprocess.PIPE, check=False,
    ).stderr.decode()
    found = re.search(r"Collected : (\d+)", told)
    if not found:
        sys.exit("valgrind said: " + told)
    return int(found.group(1))


def timed(words):
    """The seconds of a run. Its status is its own: a measuring program tells a sum, or that a session has not ended."""
    before = time.monotonic()
    subprocess.run(words, stdout=subprocess.DEVNULL, check=False)
    return time.monotonic() - before


def speeds(commands, body):
    """Bytes per second of each of these commands, which take a number of blocks: from the best of five runs each over many blocks and over few, in turns."""
    whole = 256 * 2**20 // body
    best = {}
    for _ in range(5):
        for name, command in commands.items():
            for blocks in (whole, whole // 4):
                took = timed([*command, str(blocks)])
                best[name, blocks] = min(took, best.get((name, blocks), took))
    return {name: whole * 3 / 4 * body / (best[name, whole] - best[name, whole // 4]) for name in commands}


def compiled(folder):
    """The check in C by slicing by eight, where there is a compiler."""
    compiler = shutil.which("gcc") or shutil.which("cc")
    if not compiler:
        return None
    program = os.path.join(folder, "slices")
    subprocess.run([compiler, "-O2", "-o", program, os.path.join(HERE, "slices.c")], check=True)
    return program


def main():
    with tempfile.TemporaryDirectory() as folder:
        program, slices = build(folder), compiled(folder)
        for work, meaning in WORK.items():
            for size, body in SIZES.items():
                few, many = 2048, 8192
                line = "%-45s %4d bytes:" % (meaning, body)
                if shutil.which("valgrind"):
                    each = (instructions(program, work, size, many) - instructions(program, work, size, few)) / (many - few)
                    line += " %8.0f instructions per block, %5.2f a byte" % (each, each / body)
                commands = {"ours": [program, work, size]}
                if work == "check" and slices:
                    commands["slices"] = [slices, str(body)]
                told = speeds(commands, body)
                line += ", %6.0f MB per second" % (told["ours"] / 1e6)
                if "slices" in told:
                    line += "; C by slicing by eight %6.0f, ratio %.2f" % (told["slices"] / 1e6, told["ours"] / told["slices"])
                print(line, flush=True)


main()

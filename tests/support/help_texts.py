"""What the help, the manual pages and the script say."""

import os
import re
import subprocess

from support.program import PROGRAM, ROOT


MAN = os.path.join(ROOT, "share", "man")
HELP = {"-h", "--help"}

# What `ymodem-tty` runs, and what it gives that by itself.
BY_SCRIPT = {"sb": "send", "rb": "receive"}
OF_SCRIPT = ("--line",)


def said_of(*command):
    """The help of a command, as it is printed."""
    how = {"stdin": subprocess.DEVNULL, "capture_output": True, "text": True, "check": False}
    said = subprocess.run([PROGRAM, *command, "--help"], **how)
    return said.stdout + said.stderr


class Help:
    """What the help of a command says: what it is about, its options with a line each, its
    arguments, and the paragraphs behind them."""

    def __init__(self, *command):
        text = said_of(*command)
        self.about = text.partition("\n")[0]
        self.commands = dict(re.findall(r"^  (\w+) +(.+)$", section(text, "Commands"), re.M))
        self.options, self.lines = set(), {}
        for names, line in re.findall(
            r"^ +(-[\w-]+(?:, -[\w-]+)?)(?: <\w+>)? +(\S.*)$", section(text, "Options"), re.M
        ):
            self.options |= set(names.split(", "))
            self.lines[names.split(", ")[-1]] = line
        self.arguments = dict(
            re.findall(r"^ +\[?<(\w+)>\S* +(\S.*)$", section(text, "Arguments"), re.M)
        )
        behind = text.partition("\nOptions:\n")[2].partition("\n\n")[2]
        self.paragraphs = [it for it in behind.split("\n\n") if it.strip()]


def section(text, name):
    return text.partition("\n%s:\n" % name)[2].partition("\n\n")[0]


def page(name):
    with open(os.path.join(MAN, name), encoding="utf-8") as it:
        return it.read()


def wants_equal(what, got, wanted):
    assert got == wanted, "%s: has %s too many, lacks %s" % (
        what,
        sorted(got - wanted),
        sorted(wanted - got),
    )

"""What the help looks like on a terminal of 80 columns, and what the manual pages say of the lines
that the program and `ymodem-tty` tell: of each one, and of no other."""

import os
import re
import subprocess

from support.cases import case, cases, sentence
from support.help_texts import BY_SCRIPT, HELP, OF_SCRIPT, Help, page, said_of, wants_equal
from support.program import ROOT


COLUMNS = 80
SCRIPT = os.path.join("share", "ymodem-tty")
# What has lines for people: the sources of their texts, but for those of how far a file is, and of
# how names are shown.
SOURCES = ("crates/ym_text/src", "crates/ym_header/src/fault.rt", "crates/ym_play/src/fault.rt")
SOURCES += ("crates/ym_record/src/message.rt", "crates/ym_show/src/surplus.rt")
SOURCES += ("crates/ym_show/src/rubbish.rt",)
REPORT = "crates/ym_judge/src/report.rt"
FAULTS = ("crates/ym_answer/src/command_fault.rt", "crates/ym_explained/src")
FAULTS += ("crates/ym_judged/src", "crates/ym_command/src", "crates/ymodem/src")
NO_MESSAGES = ("progress.rt", "cells.rt", "shown.rt", "shown_out.rt")
TEXT = r'"((?:[^"\\]|\\.)*)"'


@sentence("the help fits a terminal of 80 columns")
def test_fits():
    """No line of any help is wider than the terminal."""
    for command in ((), *((it,) for it in Help().commands if it != "help")):
        wide = [it for it in said_of(*command).splitlines() if len(it) > COLUMNS]
        assert not wide, "the help of %s is wide: %r" % (" ".join(command) or "ymodem", wide)


@cases(
    case("the help of ymodem-tty has its usage once, and fits a terminal", "ymodem-tty"),
    case("the help of ymodem-judge has its usage once, and fits a terminal", "ymodem-judge"),
)
def test_help_of_script(script):
    how = {"stdin": subprocess.DEVNULL, "capture_output": True, "text": True, "check": False}
    done = subprocess.run([os.path.join(ROOT, "share", script), "--help"], **how)
    said = done.stdout + done.stderr
    assert said.lower().count("usage: " + script) == 1, "its usage: %r" % said
    assert not [it for it in said.splitlines() if len(it) > COLUMNS], "it is wide: %r" % said


def script_says(*words):
    how = {"stdin": subprocess.DEVNULL, "capture_output": True, "text": True, "check": False}
    return subprocess.run([os.path.join(ROOT, SCRIPT), *words], **how).stderr


@sentence("the help has serial lines first")
def test_serial_first():
    """The commands of a serial line stand first, and the examples with them."""
    top = said_of()
    assert list(Help().commands)[:2] == ["sb", "rb"], "the first commands are others: %r" % top
    examples = re.findall(r"^  (?=.* )(\w[\w-]+) ", top.partition("\nOptions:")[2], re.M)
    assert examples[0] == "ymodem-tty", "the first example is one of %s" % examples[0]


@sentence("ymodem-tty takes the options of what it runs")
def test_options_of_script():
    """`ymodem-tty` takes the options of the command that it runs, and refuses others itself."""
    for command, word in BY_SCRIPT.items():
        told = Help(command).options - HELP - set(OF_SCRIPT)
        said = script_says(word, "--frob")
        refused = re.search(r"^ymodem-tty: '--frob' is none of its options: (.*)$", said, re.M)
        wants_equal("the options of %s" % word, set(refused[1].split()), told)
        assert "Usage: ymodem-tty " in said, "it shows another usage: %r" % said


# ---- The messages of the sources, and those of the manual pages


def files(places):
    for place in places:
        path = os.path.join(ROOT, place)
        names = sorted(os.listdir(path)) if os.path.isdir(path) else [""]
        for name in names:
            if name not in NO_MESSAGES:
                with open(os.path.join(path, name) if name else path, encoding="utf-8") as it:
                    yield it.read()


def templates():
    """The text of each message of the sources, with `{}` where it has one of its values."""
    found = set()
    for source in files(SOURCES + FAULTS):
        # A text goes on behind a backslash at the end of a line.
        source = re.sub(r"\\\n\s*", "", source)
        written = re.findall(r"(?:write|format)!\(\s*f,\s*" + TEXT, source)
        found |= with_chosen(set(written), source)
        # A text that is written as it is, and a function that is one. What does not begin with a
        # letter is a part of another one.
        found |= set(re.findall(r"\bf\.write_str\((?=\"[a-z])" + TEXT, source))
        found |= set(re.findall(r"^\{\s*(?=\"[a-z])" + TEXT + r"\s*\}", source, re.M))
        found |= set(re.findall(r"#\[error\(" + TEXT, source))
        found |= set(re.findall(r"(?:tell\(|eprintln\(|eprintln!\(rt;)\s*" + TEXT, source))
    # Of the report of `judge`, which is output, this alone goes to standard error.
    (report,) = files([REPORT])
    found |= set(re.findall(r"write!\(\s*f,\s*\"(start the peer[^\"]*)\"", report))
    found = {re.sub(r"\{[^{}]*\}", "{}", it) for it in found}
    return {it for it in found if re.search(r"[a-z]", it)} | lines_of_script()


def with_chosen(written, source):
    """These texts, and those that are what a case of a `match` comes to. They stand alone, or in a
    text that has one as its `{text}`. One word is no message."""
    chosen = re.findall(r"=> (?:\{\s*)?(?:[\w:]+\(\s*)?" + TEXT, source)
    chosen = {it for it in chosen if " " in it}
    around = {it for it in written if "{text}" in it}
    whole = {it.replace("{text}", one) for it in around for one in chosen}
    return written - around | (whole or chosen)


def lines_of_script():
    with open(os.path.join(ROOT, SCRIPT), encoding="utf-8") as it:
        source = re.sub(r"^\s*\w+\(\) .*$", "", it.read(), flags=re.M)
    found = re.findall(r"\b(?:say|fail|refuse) (?:'([^']*)'|" + TEXT + ")", source)
    found = {one or other for one, other in found}
    return {re.sub(r"\$\w+", "{}", it).replace("options:{}", "options: {}") for it in found}


def items():
    """The messages of both pages, as they stand there."""
    for name in ("ymodem.1", "ymodem-tty.1"):
        part = page(name).partition(".Sh DIAGNOSTICS\n")[2].partition("\n.Sh ")[0]
        yield from re.findall(r"^\.It (.*)$", part, re.M)


def pattern(template):
    return "(?:.+)".join(map(re.escape, template.split("{}")))


@sentence("the manual pages have each message, and no other")
def test_diagnostics():
    """Both pages tell of each message, and of no other. One may stand behind another one there."""
    told, known = list(items()), {it: pattern(it) for it in templates()}
    behind = {it: re.compile("(?:.+: )?" + text) for it, text in known.items()}
    lacking = [it for it, text in behind.items() if not any(map(text.fullmatch, told))]
    assert not lacking, "the manual pages lack these messages: %r" % lacking
    more = [it for it in told if not any(re.fullmatch(text, it) for text in known.values())]
    assert not more, "nothing tells what the manual pages have: %r" % more
    assert len(told) == len(set(told)), "the pages have a message twice"


REFUSED = [
    ("receive", "--frob"),
    ("receive", "a", "b"),
    ("send",),
    ("send", "--single", "a"),
    ("send", "-p", "a"),
    ("sb", "a"),
    ("send", "--short", "--short", "a"),
    ("receive", "--record", "a", "--verbose", "--record=b"),
    ("send", "--record=", "a"),
    ("send", "--record", "--short", "a"),
    ("--speed",),
    ("--flow", "some", "send", "a"),
]


@cases(*(case("ymodem-tty refuses words: %s" % " ".join(it), it) for it in REFUSED))
def test_refuses(words):
    """Words that the program would refuse are refused before, with the usage of the script."""
    said = script_says(*words)
    assert said.startswith("ymodem-tty: "), "it said %r" % said
    assert "\nUsage: ymodem-tty [LINE] send" in said, "it shows another usage: %r" % said
    assert "ymodem sb" not in said and "ymodem rb" not in said, "it said %r" % said

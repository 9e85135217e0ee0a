"""The manual pages and the completion against what the program says of itself: neither may lack
what the help has, nor have more."""

import os
import re
import subprocess

from support.cases import case, cases, sentence
from support.help_texts import BY_SCRIPT, HELP, MAN, OF_SCRIPT, Help, page, wants_equal
from support.program import ROOT
from support.skipping import needs

COMPLETION = os.path.join(ROOT, "share", "completion")
SCRIPTS = ("ymodem-tty", "ymodem-judge")


def plain(text):
    return re.sub(r" ([,.;])", r"\1", " ".join(text.replace("`", "").split()))


def text_of(source):
    """The text of a manual page's source, without its macros."""
    lines = []
    for line in source.splitlines():
        if line.startswith("."):
            line = re.sub(
                r"\bFl (\S)",
                r"-\1",
                re.sub(r"^\.(Fl )?", lambda found: "Fl " if found[1] else "", line),
            )
            line = re.sub(r"\b(It|Cm|Ar|Li|Ql|Xr|Nm|Op|Pp|Ev) ?", "", line)
        lines.append(line.replace("\\e", "\\"))
    return plain("\n".join(lines))


def pieces(paragraph):
    """What of a paragraph of the help a page has to have: each sentence, or each line that is
    indented."""
    lines = paragraph.split("\n")
    if any(line.startswith("  ") for line in lines):
        return [
            plain(re.sub(r"^  (\S+(?: \S+)*?)  +", r"\1 ", line))
            for line in lines
            if line.startswith("  ")
        ]
    return re.split(r"(?<=\.) (?=[A-Z])", plain(paragraph))


@sentence("ymodem.1 says what the help says")
def test_manual_page():
    source = page("ymodem.1")
    whole, top = text_of(source), Help()
    parts = dict(re.findall(r"^\.Ss (\w+)\n(.*?)(?=^\.S[sh] )", source, re.M | re.S))
    wants_equal("the sections of commands", set(parts), set(top.commands))
    lacking = [it for paragraph in top.paragraphs for it in pieces(paragraph) if it not in whole]
    for command in set(top.commands) - {"help"}:
        told, part = Help(command), parts[command]
        text = text_of(part)
        found = {
            it
            for line in re.findall(r"^\.It Fl (.*)$", part, re.M)
            for it in re.findall(r"(?:^|Fl )(-?\w[\w-]*)", line)
        }
        wants_equal("the options of %s" % command, {"-" + it for it in found}, told.options - HELP)
        wanted = [
            told.about + ".",
            *("%s." % line for option, line in told.lines.items() if option not in HELP),
            *told.arguments.values(),
        ]
        wanted += [it for paragraph in told.paragraphs for it in pieces(paragraph)]
        # Examples stand at the end of the page.
        lacking += [
            "%s: %s" % (command, it)
            for it in wanted
            if plain(it) not in text and plain(it) not in whole
        ]
    assert not lacking, "ymodem.1 lacks what the help says: %r" % lacking


@sentence("the synopsis of ymodem.1 has the options of the help")
def test_synopsis():
    """Each command's line has its options."""
    found = page("ymodem.1").partition(".Sh SYNOPSIS\n")[2].partition(".Sh ")[0]
    for command, lines in re.findall(r"^\.(?:Op )?Cm (\w+)\n(.*?)(?=^\.Nm|\Z)", found, re.M | re.S):
        wants_equal(
            "the synopsis of %s" % command,
            {"-" + it for it in re.findall(r"Fl (-\w[\w-]*)", lines)},
            set(Help(command).options) - HELP - {"-p"},
        )


@sentence("ymodem-tty.1 says what the script says")
def test_page_of_script():
    """What the script says of itself stands in its page."""
    said = subprocess.run(
        [os.path.join(ROOT, "share", "ymodem-tty"), "--help"],
        capture_output=True,
        text=True,
        check=False,
    ).stderr
    whole = text_of(page("ymodem-tty.1"))
    paragraph = next(it for it in said.split("\n\n") if it.startswith("LINE"))
    wanted = [said.partition("\n")[0], *pieces(paragraph)[:4]]
    lacking = [it for it in wanted if it not in whole]
    assert not lacking, "ymodem-tty.1 lacks what the script says: %r" % lacking


@cases(*(case("%s.1 tells of the variable YMODEM" % it, it) for it in SCRIPTS))
def test_variable_of_script(script):
    """Each script that runs the program takes it from there."""
    with open(os.path.join(ROOT, "share", script), encoding="utf-8") as it:
        assert "YMODEM" in it.read(), "%s does not heed it" % script
    told = page(script + ".1").partition(".Sh ENVIRONMENT\n")[2].partition(".Sh ")[0]
    assert ".It Ev YMODEM\n" in told, "the page has %r" % told


@sentence("mandoc finds no fault in the manual pages")
def test_lint():
    """mandoc finds nothing; which other pages a machine has does not count."""
    needs("mandoc")
    said = subprocess.run(
        ["mandoc", "-T", "lint", "ymodem.1", *("%s.1" % it for it in SCRIPTS)],
        cwd=MAN,
        capture_output=True,
        text=True,
        check=False,
    ).stdout
    found = [it for it in said.splitlines() if "referenced manual not found" not in it]
    assert not found, "\n".join(found)


def by_bash(name, words):
    file = os.path.join(COMPLETION, name + ".bash")
    script = (
        'source "$1"; shift; COMP_WORDS=("$@"); COMP_CWORD=$(($# - 1)); COMP_LINE=$*;'
        ' _%s; printf "%%s\\n" "${COMPREPLY[@]}"'
        % name.replace("-", "_")
    )
    said = subprocess.run(
        ["bash", "--norc", "-c", script, "bash", file, *words],
        capture_output=True,
        text=True,
        check=True,
    )
    return {it: None for it in said.stdout.split("\n") if it}


def by_zsh(name, words):
    """What the completion hands to zsh's own functions."""
    given = (
        'words=("$@"); CURRENT=$#; _arguments() { print -rl -- "$@"; case "$*" in *_describe*)'
        " print -rl -- $commands;; esac }; "
    )
    script = "file=$1; shift; " + given + "complete() { source $file; }; complete"
    said = subprocess.run(
        ["zsh", "-fc", script, "zsh", os.path.join(COMPLETION, "_" + name), *words],
        capture_output=True,
        text=True,
        check=True,
    )
    options = re.findall(r"^(?:\(.*?\))?(-[\w-]+)[=+]?\[(.*?)\](?::.*)?$", said.stdout, re.M)
    return dict(options + re.findall(r"^([a-z]+):(.+)$", said.stdout, re.M))


def by_fish(name, words):
    script = "source $argv[1]; complete -C $argv[2]"
    line = " ".join(words)
    file = os.path.join(COMPLETION, name + ".fish")
    said = subprocess.run(
        ["fish", "--private", "--no-config", "-c", script, file, line],
        capture_output=True,
        text=True,
        check=True,
    )
    return dict((*it.split("\t"), None)[:2] for it in said.stdout.splitlines())


@cases(
    case("completion in bash", "bash", by_bash),
    case("completion in zsh", "zsh", by_zsh),
    case("completion in fish", "fish", by_fish),
)
def test_completion(shell, complete):
    """The completion offers the commands, and for each the options of its help, with its words
    where the shell shows any."""

    def wants_offered(what, name, words, wanted):
        found = complete(name, words)
        wants_equal("%s, %s" % (what, shell), set(found), set(wanted))
        wrong = {
            it: line for it, line in found.items() if line and wanted[it] and line != wanted[it]
        }
        assert not wrong, "%s, %s says other words than the help: %r" % (what, shell, wrong)

    needs(shell)
    top = Help()
    wants_offered(
        "the commands",
        "ymodem",
        ["ymodem", ""],
        {**top.commands, **(dict.fromkeys(top.options) if shell != "fish" else {})},
    )
    for command in set(top.commands) - {"help"}:
        told = Help(command)
        lines = {option: told.lines.get(option) for option in told.options}
        wants_offered("the options of %s" % command, "ymodem", ["ymodem", command, "-"], lines)
        if command in BY_SCRIPT:
            rest = {option: line for option, line in lines.items() if option not in OF_SCRIPT}
            words = ["ymodem-tty", BY_SCRIPT[command], "-"]
            wants_offered("the options of %s" % " ".join(words[:2]), "ymodem-tty", words, rest)

#!/usr/bin/env python3
"""Makes out/web from this folder and the library for 64-bit WebAssembly: the module ymodem.wasm, ymodem.js with its types, and the page.

The module is made by module.py. It has the calls that the files of this folder make, and no others.

ymodem.js is the files of this folder joined into one, and index.html has all of it inside, the module too, so that it works from a disk, where a page may
load nothing.

usage: build.py ARCHIVE OUT
"""

import base64
import gzip
import hashlib
import os
import re
import sys

sys.dont_write_bytecode = True
HERE = os.path.dirname(os.path.abspath(__file__))
sys.path.insert(0, HERE)

from module import REFUSALS, made

LIBRARY = ("codes", "errors", "engine", "alarm", "line", "timed", "driving", "log", "receiving", "sending", "websocket", "ymodem")
PAGE = ("words", "remembered", "terminal", "chart", "progress", "ports", "page")
STYLES = ("controls", "line", "page")

IMPORT = re.compile(r"^import [^;]*;\n+", re.M)
EXPORT = re.compile(r"^export (?=(?:async function|function|class|const|let)\b)", re.M)
CALLED = re.compile(r"\bcalls\.(ym_\w+)")
NAMED = re.compile(r"^(?:async function|function|class|const|let) (\w+)", re.M)
COMMENT = re.compile(r"^[ \t]*(?:/\*.*?\*/|//[^\n]*)[ \t]*\n", re.M | re.S)
EDGES = re.compile(r"\n\s*")
# What stands as it is, a text or a pattern, or else a space.
KEPT = r"""(`(?:\\.|[^`\\])*`|"(?:\\.|[^"\\])*"|'(?:\\.|[^'\\])*'|/(?![/*\s])(?:\\.|\[(?:\\.|[^\]\\])*\]|[^/\\\n\[])+/)"""
KEPT_OR_SPACE = re.compile(KEPT + "| +", re.S)
KEPT_OR_PRIVATE = re.compile(KEPT + r"|#([A-Za-z]\w*)", re.S)
# What ends the last statement of a block, and the end of a line behind a sign that does not end
# there what it stands in.
KEPT_OR_END = re.compile(KEPT + r"|;\n?(?=\})|(?<=[{};,(])\n", re.S)


def read(name):
    with open(os.path.join(HERE, name), encoding="utf-8") as it:
        return it.read()


def joined(names):
    """The files as one, in an order in which each stands behind those that it takes from."""
    text = "\n".join(EXPORT.sub("", IMPORT.sub("", read(name + ".js"))) for name in names)
    found = NAMED.findall(text)
    twice = {name for name in found if found.count(name) > 1}
    if twice:
        sys.exit("build.py: named twice: " + " ".join(sorted(twice)))
    return text


def shortened(text):
    """Without what only a reader needs: comments, the space at the front of lines, that between signs, most ends of lines, and the long names of private
    fields."""
    short = {}

    def renamed(found):
        if found.group(1):
            if "#" in found.group(1) and found.group(1)[0] == "`":
                sys.exit("build.py: a private field in a template: " + found.group(1))
            return found.group(1)
        return "#" + short.setdefault(found.group(2), letters(len(short)))

    text = EDGES.sub("\n", COMMENT.sub("", text)).strip() + "\n"

    def squeezed(found):
        if found.group(1):
            return found.group(1)
        around = text[found.start() - 1] + text[found.end()]
        return " " if re.fullmatch(r"[\w$#]{2}|\+\+|--", around) else ""

    text = KEPT_OR_PRIVATE.sub(renamed, KEPT_OR_SPACE.sub(squeezed, text))
    # Behind that, since a pattern ends in its line.
    return KEPT_OR_END.sub(lambda found: found.group(1) or "", text)


def letters(number):
    """The names a, b, .., z, aa, ab, .."""
    return (letters(number // 26 - 1) if number > 25 else "") + chr(97 + number % 26)


def styled(names):
    """The same of styles: the last one has the last word."""
    text = COMMENT.sub("", "".join(read(name + ".css") for name in names))
    text = re.sub(r"\s*([{};:,])\s+", r"\1", EDGES.sub("\n", text))
    return text.replace(";}", "}").strip() + "\n"


def called():
    """The calls that the files of this folder make."""
    return set(CALLED.findall("".join(read(it + ".js") for it in LIBRARY)))


def hashed(text):
    return "'sha256-%s'" % base64.b64encode(hashlib.sha256(text.encode()).digest()).decode()


def page(module):
    """The page, whole. What it may load is what stands in it; it may connect to a WebSocket."""
    packed = base64.b64encode(gzip.compress(module, 9, mtime=0)).decode()
    script = "const PACKED = '%s';\n%s\n{\n%s}\n" % (packed, shortened(joined(LIBRARY)), shortened(joined(PAGE)))
    style = styled(STYLES)
    policy = "; ".join(
        (
            "default-src 'none'",
            "script-src %s 'wasm-unsafe-eval'" % hashed(script),
            "style-src " + hashed(style),
            "connect-src ws: wss:",
            "img-src data:",
            "base-uri 'none'",
            "form-action 'none'",
        )
    )
    text = EDGES.sub("\n", read("index.html"))
    for mark, put in (("@POLICY@", policy), ("@STYLE@", style), ("@SCRIPT@", script)):
        if text.count(mark) != 1:
            sys.exit("build.py: index.html: one %s is wanted" % mark)
        text = text.replace(mark, put)
    return text


def module_text():
    """ymodem.js for other pages. Who wants to read it reads this folder."""
    head = re.match(r"/\*.*?\*/\n", read("ymodem.js"), re.S).group()
    return head + shortened(joined(LIBRARY))


def main():
    archive, out = sys.argv[1:]
    os.makedirs(out, exist_ok=True)
    try:
        module = made(archive, called())
    except REFUSALS as why:
        sys.exit("build.py: %s" % why)
    with open(os.path.join(out, "ymodem.wasm"), "wb") as it:
        it.write(module)
    for name, text in (("ymodem.js", module_text()), ("ymodem.d.ts", read("ymodem.d.ts")), ("index.html", page(module))):
        with open(os.path.join(out, name), "w", encoding="utf-8") as it:
            it.write(text)
    sizes = {name: os.path.getsize(os.path.join(out, name)) for name in sorted(os.listdir(out))}
    print("%s: %s; %d bytes in all" % (out, ", ".join("%s %d" % it for it in sizes.items()), sum(sizes.values())))


if __name__ == "__main__":
    main()

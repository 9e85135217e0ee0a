"""The rows of a chart of `ymodem explain --chart`: those that the lines that are told call for, and
those that a picture has."""

import re
import xml.etree.ElementTree as ET


SVG = "{http://www.w3.org/2000/svg}"
LINE = re.compile(r"(?:(\d+\.\d{3}) )?([<>]) (.*)")
# A block in its turn, and the answer that takes it.
NEXT = re.compile(r"block (\d+), \d+ bytes: the next")
TAKES = "ACK: took it"
PLAIN = (
    "C: asks for a file",
    "C: asks for what comes next",
    "EOT: ends the file",
    "EOT: once more, as asked",
    "NAK: wants the EOT once more, as of each first one",
)
BEGINS = re.compile(r"block 0, \d+ bytes: (begins a file|ends the batch)")
# So many rows, and so many bytes of a text, are drawn at most.
ROWS, TEXT = 500, 80
# As many blocks as these are a run.
RUN = 4
# The heads of the arrows.
HEADS = {"there": ["M 404 20 l -11 -5 v 10 z"], "back": ["M 104 20 l 11 -5 v 10 z"]}


def shown(data):
    """Bytes as a chart shows them."""
    text = "".join(chr(it) if 0x20 <= it <= 0x7E else "\\x%02x" % it for it in data[:TEXT])
    return text + (" .." if len(data) > TEXT else "")


def is_plain(words):
    return words in PLAIN or words == TAKES or NEXT.fullmatch(words) or BEGINS.fullmatch(words)


def arrow(line):
    """The row of a line: its class, and its texts."""
    moment, mark, words = LINE.fullmatch(line.decode("latin-1")).groups()
    name = re.split("[,:]", words, maxsplit=1)[0]
    way = "there" if mark == ">" else "back"
    texts = (moment or "", name, words[len(name) + 2 :])
    kind = way if is_plain(words) else way + " odd"
    return (kind, *(shown(it.encode("latin-1")) for it in texts))


def is_arrow(line):
    return LINE.fullmatch(line.decode("latin-1"))


def words_of(line):
    found = is_arrow(line)
    return found[3] if found else ""


def is_pair(lines):
    """Whether these are a block in its turn and the answer that takes it."""
    words = [words_of(it) for it in lines]
    return len(words) == 2 and NEXT.fullmatch(words[0]) and words[1] == TAKES


def pairs_at(lines, at):
    """How many blocks in their turn stand here, each with its answer behind it."""
    count = 0
    while is_pair(lines[at : at + 2]):
        at, count = at + 2, count + 1
    return count


def run_of(lines):
    """The row of so many blocks in their turn."""
    numbers = tuple(NEXT.fullmatch(words_of(it))[1] for it in (lines[0], lines[-2]))
    words = "blocks %s to %s, each acknowledged" % numbers
    return "run", arrow(lines[0])[1], words, "%d blocks" % (len(lines) // 2)


def rows_of(lines):
    """The rows that these lines call for, and the sentences at the end."""
    rows, ends, at = [], [], 0
    while at < len(lines):
        count = pairs_at(lines, at)
        if count >= RUN:
            rows.append(run_of(lines[at : at + 2 * count]))
            at += 2 * count
            continue
        if is_arrow(lines[at]):
            rows.append(arrow(lines[at]))
        elif lines[at].startswith(b"  "):
            rows.append(("note", shown(lines[at][2:])))
        else:
            ends.append(shown(lines[at]))
        at += 1
    return rows, ends


def text_of(element):
    return element.text or ""


def of_class(element, name, kind):
    """What stands in an element under this name, of this class."""
    return [it for it in element.findall(SVG + name) if it.get("class") == kind]


def row_of(group):
    """A row: its class and its texts. It has the head of its arrow, where it is one."""
    kind = group.get("class")
    tips = [it.get("d") for it in of_class(group, "path", "tip")]
    assert tips == HEADS.get(kind.split()[0], []), "%r has the head %r" % (kind, tips)
    return (kind, *(text_of(it) for it in group.findall(SVG + "text")))


def top_of(group):
    return int(re.fullmatch(r"translate\(0 (\d+)\)", group.get("transform"))[1])


def read(path):
    """The rows and the sentences at the end of a chart, which stand below one another."""
    root = ET.parse(path).getroot()
    assert root.tag == SVG + "svg", "the root is %r" % root.tag
    assert not list(root.iter(SVG + "script")), "there is a script in it"
    groups, ends = root.findall(SVG + "g"), of_class(root, "text", "end")
    rows, tops = [row_of(it) for it in groups], [top_of(it) for it in groups]
    wanted = [76 + 28 * at for at in range(len(tops))]
    assert tops == wanted, "the rows stand at %r" % tops[:9]
    height, below = int(root.get("height")), [int(it.get("y")) for it in ends]
    is_below = all(it > (tops or [0])[-1] + 28 for it in below)
    assert is_below and max(below, default=0) < height, "the ends stand at %r of %d" % (
        below,
        height,
    )
    return rows, [text_of(it) for it in ends]

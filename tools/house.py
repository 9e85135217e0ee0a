#!/usr/bin/env python3
"""What the crates keep to among themselves, and the pages, by their texts.

Some rules have no exception. Other counts may only fall: tools/house.json has the most that each
may be, and `keep` lowers it to what it is today. A count that has to rise is written there by hand.

usage: house.py          prints each count, and the most that it may be
       house.py check    tells which rule is broken, and which count rose: then the status is 1
       house.py list     prints each place that is counted, to find what rose
       house.py keep     lowers each limit of which the count fell
"""

import json
import os
import re
import sys

sys.dont_write_bytecode = True

import plant_table
import statements

ROOT = os.path.dirname(os.path.dirname(os.path.abspath(__file__)))
CRATES = os.path.join(ROOT, "crates")
LIMITS = os.path.join(ROOT, "tools", "house.json")
COLUMNS = 100
PROOF_LINES = 400
EDITS = 50
# Crates of which the gate tries edits, in which a main theorem can break: a damaged frame is taken, a
# file is committed twice or reported early, an end is deaf to a quiet line, a line is never let
# clear, a call says well what is not, a session ends in the wrong status. To try one costs the
# crate's whole proof once more. `make edits` tries those of all crates.
TRIED = {"ym_frame", "ym_core", "ym_link", "ym_port", "ym_pair", "ym_delay", "ym_looped"}
README, README_LINES = "README.md", 80
MAP = "docs/map.md"
# The two pages that say what is promised and how to believe it, and the words of both together.
PROMISES, PROMISES_WORDS = ("docs/promises.md", "docs/believe.md"), 3500
MEAN_WORDS = 18

IMPORT = re.compile(r"^(?:pub )?(?:ghost )?(?:pub )?use [^\n]*", re.M)
# A crate's own lemmas, named from another crate's files.
LEMMAS = re.compile(r"Rattle\.(ym_\w+)\.proofs\.")
TYPE = re.compile(r"^(?:pub )?(?:ghost )?(?:struct|enum|trait|type) (\w+)", re.M)
# Crates that try others, where a name may be taken once more.
TRIES = re.compile(r"\w+_(uses|cases)|replay")
# A link or a picture to another place than the web, and what does not count as one.
LINK = re.compile(r"\]\((?!https?:)([^)\s]+)\)")
LISTING, CODE = re.compile(r"^```.*?^```", re.M | re.S), re.compile(r"`[^`]*`")
# A line that begins a text of its own, and where a sentence ends.
BEGINS = re.compile(r"\s*(?:[-*]|\d+\.)\s+|#|\||    ")
ENDS = re.compile(r"(?<=[.!?])[*)\"]*\s+(?=[\"(*\[A-Z0-9])")


def text_of(name):
    with open(os.path.join(ROOT, name), encoding="utf-8") as it:
        return it.read()


def texts(parts, endings):
    """Each file of these parts of a crate, as its crate, its path and its text."""
    for crate in sorted(os.listdir(CRATES)):
        for part in parts:
            for at, folders, names in os.walk(os.path.join(CRATES, crate, part)):
                folders.sort()
                for name in sorted(it for it in names if it.endswith(endings)):
                    path = os.path.relpath(os.path.join(at, name), ROOT)
                    yield crate, path, text_of(path)


def pages():
    """The pages of the project, as paths from its root."""
    found = sorted(os.path.join("docs", it) for it in os.listdir(os.path.join(ROOT, "docs")))
    return [README, "CONTRIBUTING.md", *(it for it in found if it.endswith(".md"))]


def wide(path, text):
    lines = enumerate(text.splitlines(), 1)
    return ["%s:%d" % (path, number) for number, line in lines if len(line) > COLUMNS]


# ---- Rules. Each gives what breaks it.


def lemmas_of_another_crate():
    """A crate stands on contracts and laws of the crates below it alone."""
    for crate, path, text in texts(("src", "specs", "proofs"), (".rt", ".antt")):
        for lemma in LEMMAS.finditer(text):
            if lemma[1] != crate:
                yield "%s names %s" % (path, lemma[0])


def spec_modules_of_one_name():
    homes = {}
    for _, path, _ in texts(("specs",), ".antt"):
        homes.setdefault(os.path.basename(path), []).append(path)
    for name, paths in homes.items():
        if name != "Lib.antt" and len(paths) > 1:
            yield " and ".join(paths)


def long_proof_files():
    for _, path, text in texts(("proofs",), ".antt"):
        if text.count("\n") > PROOF_LINES:
            yield path


def edits_in(part):
    """How many edits each crate has in must-fail/ or in edits/, where it has some."""
    counts = {}
    for crate, _, _ in texts((part,), ".edit"):
        counts[crate] = counts.get(crate, 0) + 1
    return counts


def edits_of_the_gate():
    """The gate tries the edits of must-fail/ alone, each by a check of its own."""
    tried = edits_in("must-fail")
    for crate, count in tried.items():
        if not 2 <= count <= 4:
            yield "%s has %d, not two to four" % (crate, count)
    for crate in sorted(TRIED ^ set(tried)):
        has = "none" if crate in TRIED else "some"
        yield "%s has %s in must-fail/" % (crate, has)
    if sum(tried.values()) > EDITS:
        yield "there are %d, more than %d" % (sum(tried.values()), EDITS)


def anchors(text):
    """The anchors of a page's headings, as they are made of their words."""
    headings = re.findall(r"^#+ (.*)$", LISTING.sub("", text), re.M)
    return {re.sub(r"[^\w\- ]", "", it.lower()).replace(" ", "-") for it in headings}


def leads_somewhere(page, link):
    path, _, anchor = link.partition("#")
    there = os.path.normpath(os.path.join(os.path.dirname(page), path)) if path else page
    if not os.path.exists(os.path.join(ROOT, there)):
        return False
    return not anchor or anchor in anchors(text_of(there))


def links_that_lead_nowhere():
    for page in pages():
        for link in LINK.findall(CODE.sub("", LISTING.sub("", text_of(page)))):
            if not leads_somewhere(page, link):
                yield "%s: %s" % (page, link)


def crates_below():
    """The crates of this repository that each one stands on."""
    lines = [it.partition(":") for it in text_of("crates.txt").splitlines() if ":" in it]
    return {name.split()[0]: used.split() for name, _, used in lines}


def map_of_other_crates():
    """The map names each crate, and its arrows lead from a crate to one that stands on it."""
    text, below = text_of(MAP), crates_below()
    yield from ("%s is not there" % it for it in below if "`%s`" % it not in text)
    for line in text.splitlines():
        chain = line.split(" --> ")
        for one, other in zip(chain, chain[1:]):
            if one.strip() not in below.get(other.strip(), ()):
                yield "%s does not stand on %s" % (other.strip(), one.strip())


def wide_lines_of_pages():
    for page in pages():
        yield from wide(page, text_of(page))


def wide_lines_of_code():
    """An import does not count: `rt fmt` lays it out in one line, or in a line for each name."""
    for _, path, text in texts(("src", "specs"), (".rt", ".antt")):
        yield from wide(path, IMPORT.sub("", text))


def lines_of_the_readme():
    count = text_of(README).count("\n")
    if count > README_LINES:
        yield "%d" % count


def words_of_the_promises():
    count = sum(len(text_of(page).split()) for page in PROMISES)
    if count > PROMISES_WORDS:
        yield "%d" % count


def paragraphs(text):
    """The paragraphs and the items of a page's lists, without listings, tables and headings."""
    said = []
    for line in LISTING.sub("", text).splitlines():
        begins = BEGINS.match(line)
        if said and (begins or not line.strip()) and not (begins and begins[0] == "    "):
            yield " ".join(said)
            said = []
        if line.strip() and (not begins or begins[0] not in "#|" and (said or begins[0] != "    ")):
            said.append(line[begins.end() :] if begins else line)
    if said:
        yield " ".join(said)


def words_of_sentences(text):
    """How many words each sentence of a page has. What stands in backquotes counts as one."""
    for it in paragraphs(text):
        plain = re.sub(r"\]\([^)]*\)", "]", CODE.sub("X", it))
        counts = [len(re.findall(r"[\w'-]+", sentence)) for sentence in ENDS.split(plain)]
        yield from (count for count in counts if count)


def long_sentences():
    for page in pages():
        counts = list(words_of_sentences(text_of(page)))
        if sum(counts) > MEAN_WORDS * len(counts):
            yield "%s has %.1f" % (page, sum(counts) / len(counts))


RULES = {
    "a crate cites a lemma of another one": lemmas_of_another_crate,
    "two spec modules share a name": spec_modules_of_one_name,
    "proof files of more than %d lines" % PROOF_LINES: long_proof_files,
    "edits that the gate tries": edits_of_the_gate,
    "links that lead nowhere": links_that_lead_nowhere,
    "%s is of other crates" % MAP: map_of_other_crates,
    "lines of a page over %d columns" % COLUMNS: wide_lines_of_pages,
    "lines of code and clauses over %d columns" % COLUMNS: wide_lines_of_code,
    "more than %d lines in the README" % README_LINES: lines_of_the_readme,
    "more than %d words in %s and %s" % (PROMISES_WORDS, *PROMISES): words_of_the_promises,
    "more than %d words a sentence" % MEAN_WORDS: long_sentences,
    **plant_table.RULES,
}

# ---- Counts that may only fall. Each gives the places that are counted.


def record_literals():
    """A record that a contract writes out, where a definition could say it by a name."""
    for _, path, text in texts(("src",), ".rt"):
        for number, line in enumerate(text.splitlines(), 1):
            for _ in re.findall(r"\brecord \{", line):
                yield "%s:%d" % (path, number)


def names_of_two_types():
    homes = {}
    for crate, path, text in texts(("src",), ".rt"):
        if not TRIES.fullmatch(crate) and os.path.basename(path) != "tests.rt":
            for name in TYPE.findall(text):
                homes.setdefault(name, []).append(path)
    for name, paths in sorted(homes.items()):
        if len(paths) > 1:
            yield "%s: %s" % (name, " and ".join(paths))


def lines_of_proofs():
    for _, path, text in texts(("proofs",), ".antt"):
        yield from [path] * text.count("\n")


def lines_of_what_run_states():
    """Of the definitions that a reader of `run` needs, who wants to know what its clauses say."""
    there = os.path.join(CRATES, "ym_line", "src", "rounds.rt")
    for it, count in statements.stated(CRATES, there, "run").items():
        yield from [it] * count


COUNTS = {
    "record literals in contracts": record_literals,
    "names of two types": names_of_two_types,
    "lines of proofs": lines_of_proofs,
    "lines of what run states": lines_of_what_run_states,
}


def limits():
    return json.loads(text_of(LIMITS))


def check():
    broken = ["%s: %s" % (rule, it) for rule, breaks in RULES.items() for it in breaks()]
    most = limits()
    for what, places in COUNTS.items():
        count = len(list(places()))
        if count > most[what]:
            broken.append("%s: %d, which rose from %d" % (what, count, most[what]))
            broken.append("  tools/house.py list names them all, and tools/house.json the most")
    print("\n".join(broken), end="\n" * bool(broken))
    return 1 if broken else 0


def show():
    most = limits()
    for what, places in COUNTS.items():
        print("%s: %d of %d" % (what, len(list(places())), most[what]))
    return 0


def places_of_all():
    for what, places in COUNTS.items():
        lines = {}
        for it in places():
            lines[it] = lines.get(it, 0) + 1
        for it, count in lines.items():
            print("%s: %s%s" % (what, it, " (%d)" % count if count > 1 else ""))
    return 0


def keep():
    most = limits()
    for what, places in COUNTS.items():
        most[what] = min(most[what], len(list(places())))
    with open(LIMITS, "w", encoding="utf-8") as it:
        it.write(json.dumps(most, indent=4) + "\n")
    return show()


def main(words):
    calls = {(): show, ("check",): check, ("list",): places_of_all, ("keep",): keep}
    if tuple(words) not in calls:
        sys.exit(__doc__)
    return calls[tuple(words)]()


if __name__ == "__main__":
    sys.exit(main(sys.argv[1:]))

"""What a reader has to read of specs/ to know what a public call states: the definitions that its
clauses name, those that these name, and so on. Names are followed as the files import them.
"""

import os
import re

START = re.compile(r"(?:(?:abbrev|unfoldable) (?:pub )?|(?:pub )?(?:record|data) )(\w+)")
USE = re.compile(
    r"(?:pub |ghost )*use Rattle\.(\w+)\.specs\.(\w+)(?:\.\{(.*)\}| as (\w+));?$", re.M
)
CONSTRUCTOR = re.compile(r"  (\w+) :")
WORD = re.compile(r"[A-Za-z_]\w*(?:\.[A-Za-z_]\w*)?")


def imported(text):
    """What each name of a file stands for that it has from elsewhere; one of a module ends in a dot."""
    names = {}
    for crate, file, listed, module in USE.findall(text):
        home = "%s.%s" % (crate, file)
        if module:
            names[module + "."] = (home, None)
        for name in re.findall(r"[^,\s][^,]*", listed):
            theirs, _, ours = name.partition(" as ")
            names[(ours or theirs).strip()] = (home, theirs.strip())
    return names


class Specs:
    """The definitions of all crates: the lines of each without comments and imports."""

    def __init__(self, crates):
        self.lines, self.names, self.types = {}, {}, {}
        for crate in sorted(os.listdir(crates)):
            folder = os.path.join(crates, crate, "specs")
            for file in sorted(os.listdir(folder)) if os.path.isdir(folder) else ():
                if file.endswith(".antt"):
                    with open(os.path.join(folder, file), encoding="utf-8") as it:
                        self.add("%s.%s" % (crate, file[: -len(".antt")]), it.read())

    def add(self, module, text):
        self.names[module], at = imported(text), None
        for line in re.sub(r"--.*", "", text).splitlines():
            begins = START.match(line)
            at = (module, begins[1]) if begins else at
            if at and line.strip() and not USE.match(line):
                self.lines.setdefault(at, []).append(line)
                of_data = re.match(r"(?:pub )?data ", self.lines[at][0]) and CONSTRUCTOR.match(line)
                if of_data:
                    self.types[module, of_data[1]] = at

    def named_in(self, text, names, module=None):
        """The definitions that a text names."""
        for word in set(WORD.findall(text)):
            first, _, rest = word.partition(".")
            home = names.get(first + ".") if rest else None
            it = (home[0], rest) if home else names.get(first, (module, first))
            if it not in self.lines and it not in self.types:
                # a module gives names of another one on
                it = self.names.get(it[0], {}).get(it[1], it)
            it = self.types.get(it, it)
            if it in self.lines:
                yield it

    def behind(self, text, names):
        """All that a reader of this text has to read."""
        found, left = set(), set(self.named_in(text, names))
        while left:
            it = left.pop()
            found.add(it)
            named = self.named_in("\n".join(self.lines[it]), self.names[it[0]], it[0])
            left |= set(named) - found
        return found


def clauses(text, call):
    """The clauses of a public call, as they stand before its body."""
    found = re.search(r"^pub fn %s<.*?\n\{\n" % call, text, re.M | re.S)
    return found[0].partition("ensures")[2] if found else ""


def stated(crates, path, call):
    """The definitions that a call's clauses need, each with how many lines it has."""
    with open(path, encoding="utf-8") as it:
        text = it.read()
    specs = Specs(crates)
    found = specs.behind(clauses(text, call), imported(text))
    return {"%s.%s" % it: len(specs.lines[it]) for it in sorted(found)}

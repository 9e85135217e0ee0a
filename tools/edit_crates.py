"""The crates of this repository, their files, and what was settled of their edits."""

import contextlib
import hashlib
import json
import os

ROOT = os.path.dirname(os.path.dirname(os.path.abspath(__file__)))
CRATES = os.path.join(ROOT, "crates")
KEPT = os.path.join(ROOT, "out", "edits")
READ = ("src", "specs", "proofs")


def sum_of(text):
    return hashlib.sha256(text.encode()).hexdigest()


class Listed:
    """The crates of this repository, as crates.txt has them."""

    def __init__(self):
        with open(os.path.join(ROOT, "crates.txt"), encoding="utf-8") as it:
            lines = [line for line in it if line.strip() and not line.startswith("#")]
        self.lines = {line.partition(":")[0].split()[0]: line.rstrip("\n") for line in lines}

    def below(self, name):
        """The crates below a crate, lowest first."""
        found = []
        for used in self.lines[name].partition(":")[2].split():
            more = [*self.below(used), used] if used in self.lines else []
            found += [it for it in more if it not in found]
        return found


def files_of(names):
    """The files of these crates that a check reads."""
    for top in (os.path.join(CRATES, name, part) for name in names for part in READ):
        for at, folders, files in os.walk(top):
            folders.sort()
            yield from (os.path.join(at, it) for it in sorted(files))


def lines_of(names, ending):
    count = 0
    for path in files_of(names):
        if path.endswith(ending):
            with open(path, "rb") as it:
                count += it.read().count(b"\n")
    return count


class Settled:
    """What earlier runs settled of a crate's edits: why each failed, or no word where it passed."""

    def __init__(self, name, names, lines, anew):
        self.file, self.names, self.lines = os.path.join(KEPT, name + ".json"), names, lines
        self.sum, self.whys = self.now(), {}
        with contextlib.suppress(OSError, ValueError, KeyError, TypeError):
            with open(self.file, encoding="utf-8") as it:
                kept = json.load(it)
            if kept["sum"] == self.sum and not anew:
                self.whys = dict(kept["whys"])

    def now(self):
        """The sum of all that a verdict stands on beside the edit."""
        found = hashlib.sha256(repr(self.lines).encode())
        for path in files_of(self.names):
            with open(path, "rb") as it:
                found.update(repr((os.path.relpath(path, CRATES), it.read())).encode())
        return found.hexdigest()

    def keep(self, edit, why):
        self.whys[sum_of(edit.text)] = why
        with open(self.file + ".new", "w", encoding="utf-8") as it:
            json.dump({"sum": self.sum, "whys": self.whys}, it)
        os.replace(self.file + ".new", self.file)

    def why(self, edit):
        return self.whys.get(sum_of(edit.text))

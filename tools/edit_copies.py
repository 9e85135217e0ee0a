"""Checks of a crate with some of its edits, most of them made on copies of their functions.

Where a function is edited where it stands, all that call it are judged again. Nothing calls a copy
that stands beside it. So an edit costs the copy's own proof alone, and all edits of a crate share
one check, also several of one function. With them goes one edit of each function of which no copy
can stand for it, as those of traits: what is ahead of the first proof is most of a short check.

A copy is the function under a name of its own, with its files of proof, in which the name is
another one, too. Where there are such files a copy without an edit is made as well. If that is not
proved, the copies show nothing. Then, and where a copy is still proved with its edit, the edit is
tried where the function stands.
"""

import contextlib
import itertools
import os
import re
import shutil

from edit_checks import Checked, Said, counted
from edit_texts import Unfit, read, write

# The files of proof that belong to one function.
PROOFS = ("Answers.antt", "Invariants.antt", "Proof.antt")
# Where a text does not compile.
ERROR = re.compile(r"^(?:\./)?(src/\S+?):(\d+):\d+: error", re.M)
VISIBLE = re.compile(r"\bpub(?:\s*\([^)]*\))?\s+((?:\w+\s+|\"C\"\s+)*fn\s+)\Z")


class Copy:
    """A copy of a function, with an edit or as it stands."""

    def __init__(self, edit, text, number):
        self.edit, function = edit, edit.changes.function
        self.name = "%s_copy_%d" % (function.path[-1], number)
        named = function.named - function.start
        self.stands = function.stands(self.name)
        head = text[: named - len(function.path[-1])]
        # Nobody else needs to see it, where no linker does.
        head = head if "no_mangle" in head else VISIBLE.sub(r"\1", head)
        self.text = (head + self.name + text[named:]).strip("\n")

    def names(self, told):
        """The prover's names of the copy and its closures."""
        return [it for it in told if self.name in it.split("::")]


class Group:
    """The edits of one function, and its copies."""

    def __init__(self, edits, proof, numbers):
        self.edits, self.proof = edits, proof
        self.changes = edits[0].changes
        function = self.changes.function
        plain = self.changes.was[function.start : function.end]
        self.plain = Copy(edits[0], plain, next(numbers))
        self.edited = [Copy(it, it.changes.text, next(numbers)) for it in edits]

    def copies(self):
        return [self.plain] * bool(self.proof) + self.edited

    def write_proofs(self, crate, folder):
        """Copies the files of proof. They name their function by its path."""
        if not self.proof:
            return
        *above, name = self.proof.split("::")[1:]
        path = r"(\bRattle\.%s\.(?:proofs|specs\.contracts)\.%s)%s(?![\w-])"
        path = re.compile(path % (crate, "".join(it + r"\." for it in above), name))
        stands = os.path.join(folder, "proofs", *above)
        for copy in self.copies():
            to = shutil.copytree(os.path.join(stands, name), os.path.join(stands, copy.name))
            for file in (os.path.join(to, it) for it in os.listdir(to) if it in PROOFS):
                write(file, path.sub(lambda it: it[1] + copy.name, read(file)))

    def shows(self, crate, said, folder):
        """Whether what becomes of its copies is what becomes of the function: the prover tells of
        it, its files of proof were found, and nothing is wrong with the copy that has no edit."""
        told = said.states
        names = [it for it in self.changes.function.names(crate, told) if "::fn::" not in it]
        with_proof = [it for it in names if has_proof(folder, it)]
        plain = self.plain.names(told) if self.proof else ()
        is_well = bool(plain) == bool(self.proof) and not said.refuses(plain)
        return bool(names) and with_proof == [self.proof] * bool(self.proof) and is_well


class Copies:
    """A check of a crate with copies of the functions of these edits, and with others where their
    functions stand."""

    def __init__(self, trial, edits, placed, what="copies"):
        self.trial, self.edits, self.placed, self.what = trial, edits, placed, what

    def groups(self, folder):
        found, proofs, numbers = {}, proofs_of(self.trial.name, folder), itertools.count(1)
        for it in self.edits:
            found.setdefault((it.changes.path, it.changes.function.start), []).append(it)
        for edits in found.values():
            fits = [it for it in proofs if is_of(edits[0].changes.function, it)]
            yield Group(edits, fits[0] if len(fits) == 1 else None, numbers)

    def write(self, folder):
        """Writes the copies beside their functions. Gives the groups."""
        groups = list(self.groups(folder))
        # From the end of each file on, so that the places ahead stay.
        for group in sorted(groups, key=lambda it: -it.changes.function.end):
            file, end = os.path.join(folder, group.changes.path), group.changes.function.end
            text = read(file)
            copies = "".join("\n\n" + it.text for it in group.copies())
            write(file, text[:end] + copies + text[end:])
            group.write_proofs(self.trial.name, folder)
        return groups

    def write_placed(self, folder):
        """Makes the others, where they can still be made."""
        texts, made = {}, []
        for edit in self.placed:
            with contextlib.suppress(Unfit):
                texts = edit.applied(texts, folder)
                made.append(edit)
        for path, text in texts.items():
            write(os.path.join(folder, path), text)
        return made

    def begin(self):
        """Makes the check, and settles the edits that it shows to be refused. Gives the runs that
        all others need."""
        with self.trial.room() as folder:
            groups, placed = self.write(folder), self.write_placed(folder)
            copies = [it for group in groups for it in group.copies()]
            ran, seconds = self.trial.checked(folder, self.trial.fit, copies)
            if Checked.is_over:
                return []
            self.trial.tell("%s, %s" % (self.what, counted(self.edits + placed)), seconds)
            said = Said(self.trial.name, ran.text)
            if not said.has_verdict:
                return self.again(unread(groups, folder, ran.text))
        copied = {it.name for it in copies}
        told = [it for it in said.states if copied.isdisjoint(it.split("::"))]
        names = {it.edit: it.names(said.states) for group in groups for it in group.edited}
        names |= {it: it.all_names(self.trial.name, told) for it in placed}
        for edit in names:
            self.trial.note(edit, ran.seconds_of(names[edit]))
        settled = self.settled(groups, names, said)
        for edit in settled:
            self.trial.settle(edit)
        left = [it for it in (*self.edits, *self.placed) if it not in settled]
        return self.trial.in_place(left, told)

    def settled(self, groups, names, said):
        """The edits whose copies, or whose functions, are refused for themselves, by the names of
        these."""
        plain = [name for group in groups for name in group.plain.names(said.states)]
        # As where all edits are made where the functions stand.
        reaches = not {*plain, *itertools.chain(*names.values())}.issuperset(said.refused())
        hidden = [it for it in groups if not it.shows(self.trial.name, said, self.trial.folder)]
        unsure = [it for group in hidden for it in group.edits]
        return [
            it
            for it in names
            if it not in unsure
            and said.refuses(names[it])
            and not (reaches and said.waits(names[it]))
        ]

    def again(self, unread):
        """The runs where the crate does not compile, which hides all else: without these copies, or
        with none."""
        left = [it for it in self.edits if unread and it not in unread]
        more = [Copies(self.trial, left, self.placed, "copies again")] if left else []
        if not (self.trial.told or self.trial.is_proved_here(self.edits)):
            return []
        others = [it for it in self.edits if it not in left] + ([] if left else self.placed)
        return more + self.trial.in_place(others, [])


def unread(groups, folder, said):
    """The edits whose copies do not compile."""
    found = set()
    places = {(path, int(line)) for path, line in ERROR.findall(said)}
    for group in groups:
        text = read(os.path.join(folder, group.changes.path))
        for copy in group.edited:
            first = text.count("\n", 0, text.index(copy.text)) + 1
            lines = range(first, first + copy.text.count("\n") + 1)
            if any(path == group.changes.path and line in lines for path, line in places):
                found.add(copy.edit)
    return found


def has_proof(folder, name):
    at = os.path.join(folder, "proofs", *name.split("::")[1:])
    return any(os.path.isfile(os.path.join(at, it)) for it in PROOFS)


def proofs_of(crate, folder):
    """The names of the functions that have files of proof."""
    top = os.path.join(folder, "proofs")
    found = [at for at, _, files in os.walk(top) if not set(PROOFS).isdisjoint(files)]
    return ["::".join([crate, *os.path.relpath(it, top).split(os.sep)]) for it in found]


def is_of(function, name):
    """Whether this is the very name of a function, in every word."""
    fit = function.fit(name)
    return fit == (1,) or len(fit) == 3 and fit[0]


def can_be_copied(edit, proofs):
    """Whether copies of one function show what the edit does. What calls itself has its proof in a
    folder of another name, and a copy of it calls the function itself."""
    of_itself = "+" + edit.changes.function.path[-1] if edit.changes else ""
    return bool(edit.changes) and of_itself not in [it.split("::")[-1] for it in proofs]


def one_of_each(edits):
    """One edit of each function, of those that need not be tried alone."""
    found, taken = [], set()
    for edit in edits:
        functions = {(path, it.start) for path, it in edit.places()}
        if not edit.is_alone and taken.isdisjoint(functions):
            found.append(edit)
            taken |= functions
    return found

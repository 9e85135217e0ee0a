"""Checks of a crate with some of its edits, made where the functions stand."""

import os

from edit_checks import Checked, Said, counted
from edit_texts import Unfit, write

# What is told of an edit that is not refused.
PROVED = "still proved"


class Run:
    """A check of a crate with some of its edits."""

    def __init__(self, trial, edit):
        self.trial, self.edits, self.names = trial, [edit], set(edit.names)
        self.texts, self.what = edit.applied({}, trial.folder), "again"

    def takes(self, edit):
        """Adds an edit, unless it and those that are there say something of one another."""
        is_alone = edit.is_alone or self.edits[0].is_alone
        if is_alone or not self.names.isdisjoint(edit.names):
            return False
        try:
            self.texts = edit.applied(self.texts, self.trial.folder)
        except Unfit:
            return False
        self.names |= edit.names
        self.edits.append(edit)
        return True

    def check(self):
        with self.trial.room() as folder:
            for path, text in self.texts.items():
                write(os.path.join(folder, path), text)
            return self.trial.checked(folder, self.edits)

    def begin(self):
        """Makes the check, and judges the edits. Gives the runs that what is open needs."""
        ran, seconds = self.check()
        if Checked.is_over:
            return []
        self.trial.tell("%s, %s" % (self.what, counted(self.edits)), seconds)
        said, is_alone = Said(self.trial.name, ran.text), len(self.edits) == 1
        for edit in self.edits:
            self.trial.note(edit, seconds if is_alone else ran.seconds_of(edit.names))
        if is_alone:
            verdict = judged(self.trial.name, self.edits[0], ran.status, said)
            self.trial.settle(self.edits[0], *verdict)
            return []
        if ran.status == 0:
            # Each function is proved by itself, by the contracts of those that it calls.
            for edit in self.edits:
                self.trial.settle(edit, PROVED)
            return []
        return self.left(said) if said.has_verdict else self.halves()

    def halves(self):
        half, together = len(self.edits) // 2, self.trial.together
        return together(self.edits[:half]) + together(self.edits[half:])

    def left(self, said):
        """Settles the edits whose own functions are refused. Gives the runs for the others."""
        # Where a function is refused by itself that no edit changes, an edit may reach further than
        # its function, so that one that calls others may be refused for these.
        reaches = not self.names.issuperset(said.refused())
        left = []
        for edit in self.edits:
            if said.refuses(edit.names) and not (reaches and said.waits(edit.names)):
                self.trial.settle(edit)
            else:
                left.append(edit)
        if self.trial.are_proved and len(left) < len(self.edits):
            return self.trial.together(left)
        # Those that wait for a function of another edit may be told of without that.
        waiting = [it for it in left if said.waits(it.names)] * (len(left) < len(self.edits))
        alone = [Run(self.trial, it) for it in left if it not in waiting]
        return self.trial.together(waiting) + alone


def judged(crate, edit, status, said):
    """Why an edit fails that was tried alone, or no word where it does not; and whether the next
    run would find the same."""
    laws = ["%s::%s" % (crate, it) for it in edit.laws]
    is_own = said.refuses(edit.names) or not edit.functions and not laws or said.refuses(laws)
    if status == 0:
        return PROVED, True
    if said.is_unread(status):
        return "cannot be read: %s" % said.first_error(), status == 1
    if status == 1 and is_own:
        return "", True
    if status == 1:
        names = " and ".join(sorted(edit.names) or laws)
        others = ", ".join(said.refused()[:3])
        return "not its own: %s: not refused; refused: %s" % (names, others or "no function"), True
    if status == 3:
        return "no verdict: %s" % said.first_error(), True
    return "not tried: its check ended with %d: %s" % (status, said.first_error()), False

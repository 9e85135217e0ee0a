"""What was acknowledged is on the disk: the recorded calls of `receive`, played on a model of a
disk that loses power at every point."""

import os

import pytest
from support.cases import sentence
from support.file_calls import FEW_FILES
from support.power_cut import Answered, Forced, Recording, losses, played
from support.program import folders, stored
from support.storing import received, told
from support.tracing import strace


pytestmark = pytest.mark.steadily

FILES = [*FEW_FILES, ("fourth", FEW_FILES[0][1][:5000])]
NO_LINKS = ("-e", "inject=link,linkat:error=EPERM")


def recorded(flags=(), more=()):
    """What `receive` did over the batch, seen by the system, and all of it."""
    with folders() as (log, there):
        log = os.path.join(log, "log")
        ended, _ = received(
            FILES,
            there,
            flags,
            strace(log, "-xx", "-s", "200000", "-e", "trace=file,desc,network,sync", *more),
        )
        ended.wants(0, told(FILES))
        deeds = Recording(log, there).deeds
        assert played(deeds) == stored(there) and played(deeds) == dict(
            FILES
        ), "the model and the folder differ"
        assert sum(isinstance(deed, Answered) for deed in deeds) == len(
            FILES
        ), "the recording has not every answer"
        return deeds


@sentence("power cut: what was acknowledged is whole")
def test_acknowledged_is_stored():
    found = losses(recorded(), FILES)
    assert not found, "after a power cut: " + ", ".join(found)


@sentence("power cut: the same on a file system without hard links")
def test_stored_without_links():
    """Here a name may be empty for a moment."""
    found = losses(recorded(more=NO_LINKS), FILES, may_be_empty=True)
    assert not found, "after a power cut: " + ", ".join(found)


def wants_losses(deeds):
    wanted = {"%r was acknowledged and is not whole" % name for name, _ in FILES}
    found = losses(deeds, FILES)
    assert wanted <= set(found), "the model finds no more than this: " + ", ".join(found)


@sentence("power cut: --no-sync can lose each file, and the model sees it")
def test_no_sync_is_lost():
    """Without a force the model finds that each file can be lost: so it can see that."""
    deeds = recorded(["--no-sync"])
    assert not any(isinstance(deed, Forced) for deed in deeds), "it forced out something"
    wants_losses(deeds)


@sentence("power cut: the model sees each force that is left out")
def test_forces_are_needed():
    """The same recording with some forces left out: those of the folder, and those of the files
    that have bytes."""
    deeds = recorded()
    wants_losses([deed for deed in deeds if not (isinstance(deed, Forced) and deed.file is None)])
    found = losses(
        [deed for deed in deeds if not (isinstance(deed, Forced) and deed.file is not None)], FILES
    )
    wanted = {"%r was acknowledged and is not whole" % name for name, data in FILES if data}
    assert wanted <= set(found), "the model finds no more than this: " + ", ".join(found)


@sentence("power cut: the model sees an answer before the force")
def test_early_answer_is_seen():
    """The same recording with each answer before the last force before it."""
    deeds = recorded()
    for at in [at for at, deed in enumerate(deeds) if isinstance(deed, Answered)]:
        last = max(force for force in range(at) if isinstance(deeds[force], Forced))
        deeds[last : at + 1] = [deeds[at], *deeds[last:at]]
    wants_losses(deeds)

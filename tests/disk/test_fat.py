"""A folder on a FAT disk: an image of one, which Debian's `fusefat` mounts."""

import contextlib
import os
import subprocess

import pytest
from support.cases import sentence
from support.program import folders, stored, wants_same, wants_stored
from support.skipping import Skipped, needs
from support.storing import received, told

pytestmark = pytest.mark.steadily
FILES = [("a.bin", b"1" * 5000), ("none", b""), ("long name.bin", bytes(range(256)) * 300)]
MEGABYTES = 8


def run(*words):
    return subprocess.run(words, capture_output=True, text=True, check=False)


@contextlib.contextmanager
def mounted(image, place):
    """The disk of this image, at this place."""
    tried = run("fusefat", "-o", "rw+", image, place)
    if tried.returncode or not os.path.ismount(place):
        raise Skipped("fusefat mounts nothing here: %s" % tried.stderr.strip())
    try:
        yield
    finally:
        run("fusermount", "-u", place)


@contextlib.contextmanager
def fat_disk():
    """A new disk, and the place for it."""
    needs("fusefat", "fusermount", "mkfs.vfat")
    with folders() as (here, place):
        image = os.path.join(here, "image")
        with open(image, "wb") as it:
            it.truncate(MEGABYTES << 20)
        assert run("mkfs.vfat", image).returncode == 0, "no disk was made"
        yield image, place


@sentence("a FAT disk: a batch is stored")
def test_stored():
    """It has no hard links, and takes each file under its name. They are on the disk."""
    with fat_disk() as (image, place):
        with mounted(image, place):
            ended, _ = received(FILES, place)
            ended.wants(0, told(FILES))
            wants_stored(place, FILES)
            with pytest.raises(PermissionError):
                os.link(os.path.join(place, "none"), os.path.join(place, "link"))
        with mounted(image, place):
            wants_stored(place, FILES)


@sentence("a FAT disk: a name that is there is refused")
def test_refused():
    """It stays as it is, and nothing is left beside it."""
    with fat_disk() as (image, place), mounted(image, place):
        received(FILES[:1], place)[0].wants(0, told(FILES[:1]))
        ended, _ = received([("a.bin", b"2" * 300)], place)
        assert ended.status == 3, "it ended with status %d" % ended.status
        wants_same(stored(place), dict(FILES[:1]))


# On such a disk the first one stands at the path of the second one's part.
ALIKE = [("a.PART", b"3" * 400), ("a", b"4" * 500)]


@sentence("a FAT disk: a.PART counts as the part of a")
def test_alike():
    """It takes one name for the other. So the first file is replaced where such parts are, and else
    refuses the second one."""
    with fat_disk() as (image, place), mounted(image, place):
        ended, _ = received(ALIKE, place)
        assert ended.status == 3, "it ended with status %d" % ended.status
        wants_stored(place, ALIKE[:1])
        received(ALIKE[1:], place, ["--discard-parts"])[0].wants(0, told(ALIKE[1:]))
        wants_stored(place, ALIKE[1:])

#!/usr/bin/env python3
"""Makes a Debian package or a tar file of the program, ymodem-tty, the manual pages, the completion and the documents, or a Debian package of the
library for C: the archive, the header, the file for pkg-config and the documents. The documents are the pages and the examples that they name.

The tar file and the package of the library also have the library as files in C, where PORTABLE, the folder that they are in, is given.

Two packages of one commit are the same, byte for byte: all times are that of the commit, or the environment variable SOURCE_DATE_EPOCH, and the
version is the program's with the commit behind it, or the environment variable VERSION.

usage: package.py deb PROGRAM FOLDER
       package.py dist PROGRAM FOLDER [PORTABLE]
       package.py dev ARCHIVE FOLDER [PORTABLE]
"""

import gzip
import hashlib
import io
import os
import re
import shutil
import subprocess
import sys
import tarfile
import tempfile
import time

ROOT = os.path.dirname(os.path.dirname(os.path.abspath(__file__)))
MAINTAINER = "Nishkubo maintainers <maintainers@users.noreply.nishkubo.example>"
# What the program may be linked to: the C library and its loader.
ALLOWED = {"libc.so.6", "ld-linux-x86-64.so.2"}
# What pages link to or name, as it stands here; and what of it makes these files, or was made of them.
DOCUMENTS = ("README.md", "CONTRIBUTING.md", "docs", "examples")
NO_DOCUMENTS = shutil.ignore_patterns("*.py", "*.script", "__pycache__", "out")

CONTROL = """Package: ymodem
Version: {version}
Architecture: amd64
Maintainer: {maintainer}
Installed-Size: {size}
Depends: libc6 (>= {libc})
Recommends: python3:any
Suggests: picocom | minicom
Section: comm
Priority: optional
Description: proved program that sends and receives files by YMODEM
 Sends and receives batches of files by YMODEM, over a serial line or a TCP
 connection on the machine itself, and plays sessions over a line that loses
 and damages bytes.
 .
 It is written in Rattle, which is Rust with contracts, and proved: whatever is
 lost or damaged on the line, where damage shows, the files that the receiver
 has committed are the first ones of the batch that was sent, each exact.
"""

DEV_CONTROL = """Package: libymodem-dev
Source: ymodem
Version: {version}
Architecture: amd64
Multi-Arch: same
Maintainer: {maintainer}
Installed-Size: {size}
Suggests: ymodem, pkgconf | pkg-config
Section: libdevel
Priority: optional
Description: proved YMODEM for callers in C (static library and header)
 A receiver and a sender of batches of files by YMODEM as state machines that
 the caller drives, for boot loaders, test benches and programs. It allocates
 nothing, keeps nothing between calls and calls nobody back; of a C library it
 needs memcpy, memmove, memset and memcmp. ymodem_io.h has whole transfers over
 a port of the caller's, and /usr/share/ymodem/portable the same library in C
 for other processors.
 .
 It is written in Rattle, which is Rust with contracts, and proved: each call
 returns, stays within what it is given, and takes the step of the protocol's
 table.
"""

COPYRIGHT = """ymodem: sends and receives files by YMODEM.

Copyright {year} the Nishkubo maintainers.

The sources state no licence.
"""

CHANGELOG = """ymodem ({version}) unstable; urgency=medium

  * Built from the sources as they were at this version.

 -- {maintainer}  {date}
"""


def said(*words, default=None):
    ran = subprocess.run(words, cwd=ROOT, capture_output=True, text=True, check=False)
    if ran.returncode and default is None:
        sys.exit("%s: %s" % (" ".join(words), ran.stderr.strip()))
    return default if ran.returncode else ran.stdout.strip()


def number():
    """The version of the program, without the commit."""
    return said(os.path.join(ROOT, "tools", "version.py"))


class Build:
    """What a package is made of."""

    def __init__(self, subject, portable=None):
        self.subject, self.portable = subject, portable
        self.epoch = int(os.environ.get("SOURCE_DATE_EPOCH") or said("git", "log", "-1", "--format=%ct"))
        self.version = os.environ.get("VERSION") or self.version_by_commit()

    def version_by_commit(self):
        # To the second: of two commits of one day the later one is the upgrade, whatever their sums are.
        when = time.strftime("%Y%m%d.%H%M%S", time.gmtime(self.epoch))
        is_changed = said("git", "status", "--porcelain", "--untracked-files=no")
        commit = said("git", "rev-parse", "--short=7", "HEAD")
        return "%s+git%s.%s%s" % (number(), when, commit, ".changed" if is_changed else "")

    def install(self, prefix):
        """Puts everything below a folder. The program comes without what only a debugger reads."""
        os.makedirs(prefix, exist_ok=True)
        stripped = os.path.join(prefix, "program")
        subprocess.run(["strip", "--strip-all", "--remove-section=.comment", "--remove-section=.note", "-o", stripped, self.subject], check=True)
        subprocess.run([os.path.join(ROOT, "tools", "install.sh"), stripped, prefix], check=True)
        os.remove(stripped)
        return documented(prefix, "ymodem")

    def install_library(self, prefix):
        """The same for the library, which comes without what only a debugger reads."""
        libraries = os.path.join(prefix, "lib", "x86_64-linux-gnu")
        for folder in (os.path.join(libraries, "pkgconfig"), os.path.join(prefix, "include")):
            os.makedirs(folder)
        words = ["strip", "--strip-debug", "--enable-deterministic-archives", "--remove-section=.comment", "--remove-section=.note"]
        subprocess.run([*words, "-o", os.path.join(libraries, "libymodem.a"), self.subject], check=True)
        for name in ("ymodem.h", "ymodem_io.h"):
            shutil.copy(os.path.join(ROOT, "include", name), os.path.join(prefix, "include"))
        with open(os.path.join(ROOT, "include", "ymodem.pc.in"), encoding="utf-8") as it:
            text = it.read().replace("@PREFIX@", "/usr").replace("@LIBDIR@", "${prefix}/lib/x86_64-linux-gnu")
            text = text.replace("@VERSION@", number())
        write(os.path.join(libraries, "pkgconfig", "ymodem.pc"), text)
        return documented(prefix, "libymodem-dev")

    def install_portable(self, prefix):
        """The same for the library as files in C, for processors that the archive is not for."""
        if self.portable:
            to = os.path.join(prefix, "share", "ymodem", "portable")
            os.makedirs(to)
            for name in ("ymodem.c", "ymodem.h", "ymodem_io.h"):
                shutil.copy(os.path.join(self.portable, name), to)


def documented(prefix, package):
    """Puts the documents of a package below a folder, each where the others link to it, and answers where they are."""
    documents = os.path.join(prefix, "share", "doc", package)
    os.makedirs(documents)
    for name in DOCUMENTS:
        it, to = os.path.join(ROOT, name), os.path.join(documents, name)
        shutil.copytree(it, to, ignore=NO_DOCUMENTS) if os.path.isdir(it) else shutil.copy(it, to)
    return documents


def linked_to(program):
    return set(re.findall(r"\(NEEDED\).*\[(.*)\]", said("readelf", "-d", program)))


def oldest_libc(program):
    """The oldest version of the C library that has all that the program calls."""
    found = re.findall(r"GLIBC_(\d+)\.(\d+)", said("readelf", "-V", program))
    return "%d.%d" % max((int(one), int(two)) for one, two in found)


def settle(top, epoch):
    """Gives all that is below a folder the time of the commit, and a mode by which everybody can read it, whatever the umask is."""
    for folder, _, files in os.walk(top, topdown=False):
        for name in files:
            file = os.path.join(folder, name)
            os.chmod(file, 0o755 if os.access(file, os.X_OK) else 0o644)
            os.utime(file, (epoch, epoch))
        os.chmod(folder, 0o755)
        os.utime(folder, (epoch, epoch))


def write(file, text):
    with open(file, "w", encoding="utf-8") as it:
        it.write(text)


def md5_of(file):
    with open(file, "rb") as it:
        return hashlib.md5(it.read()).hexdigest()


def compress(file):
    with open(file, "rb") as it:
        data = it.read()
    with open(file + ".gz", "wb") as it, gzip.GzipFile("", "wb", 9, it, 0) as packed:
        packed.write(data)
    os.remove(file)


def deb(build, to):
    beyond = linked_to(build.subject) - ALLOWED
    if beyond:
        sys.exit("the program is linked to more than the C library: %s" % ", ".join(sorted(beyond)))
    with tempfile.TemporaryDirectory(prefix="ymodem-deb-") as top:
        documents = build.install(os.path.join(top, "usr"))
        share = os.path.join(top, "usr", "share")
        os.rename(os.path.join(share, "zsh", "site-functions"), os.path.join(share, "zsh", "vendor-completions"))
        pages = os.path.join(share, "man", "man1")
        for file in sorted(os.listdir(pages)):
            compress(os.path.join(pages, file))
        return packed(build, top, documents, CONTROL, os.path.join(to, "ymodem_%s_amd64.deb" % build.version), libc=oldest_libc(build.subject))


def dev(build, to):
    with tempfile.TemporaryDirectory(prefix="ymodem-deb-") as top:
        documents = build.install_library(os.path.join(top, "usr"))
        build.install_portable(os.path.join(top, "usr"))
        return packed(build, top, documents, DEV_CONTROL, os.path.join(to, "libymodem-dev_%s_amd64.deb" % build.version))


def packed(build, top, documents, control, made, **values):
    """The Debian package of what stands below a folder, with its copyright and its changelog."""
    values |= {"version": build.version, "maintainer": MAINTAINER, "year": time.gmtime(build.epoch).tm_year}
    values["date"] = time.strftime("%a, %d %b %Y %H:%M:%S +0000", time.gmtime(build.epoch))
    write(os.path.join(documents, "copyright"), COPYRIGHT.format(**values))
    write(os.path.join(documents, "changelog"), CHANGELOG.format(**values))
    compress(os.path.join(documents, "changelog"))
    files = [os.path.join(folder, it) for folder, _, names in os.walk(top) for it in names]
    values["size"] = sum((os.path.getsize(it) + 1023) // 1024 for it in files)
    os.mkdir(os.path.join(top, "DEBIAN"))
    write(os.path.join(top, "DEBIAN", "control"), control.format(**values))
    write(os.path.join(top, "DEBIAN", "md5sums"), "".join("%s  %s\n" % (md5_of(it), os.path.relpath(it, top)) for it in sorted(files)))
    settle(top, build.epoch)
    environment = {**os.environ, "SOURCE_DATE_EPOCH": str(build.epoch), "LC_ALL": "C"}
    words = ["dpkg-deb", "--root-owner-group", "--threads-max=1", "-Zxz", "--build", top, made]
    subprocess.run(words, env=environment, stdout=subprocess.DEVNULL, check=True)
    return made


def dist(build, to):
    name = "ymodem-%s-linux-x86-64" % build.version
    made = os.path.join(to, name + ".tar.gz")

    def settled(it):
        it.mtime, it.uid, it.gid, it.uname, it.gname = build.epoch, 0, 0, "root", "root"
        return it

    with tempfile.TemporaryDirectory(prefix="ymodem-dist-") as top:
        os.mkdir(os.path.join(top, name))
        build.install(os.path.join(top, name))
        build.install_portable(os.path.join(top, name))
        settle(top, build.epoch)
        packed = io.BytesIO()
        with tarfile.open(fileobj=packed, mode="w", format=tarfile.GNU_FORMAT) as it:
            it.add(os.path.join(top, name), name, filter=settled)
    with open(made, "wb") as it, gzip.GzipFile("", "wb", 9, it, 0) as out:
        out.write(packed.getvalue())
    return made


def main(words):
    kinds = {"deb": deb, "dist": dist, "dev": dev}
    if len(words) < 3 or words[0] not in kinds or len(words) > 3 + (words[0] != "deb"):
        sys.exit(__doc__)
    for tool in ("strip", "readelf", *(["dpkg-deb"] if words[0] != "dist" else [])):
        if not shutil.which(tool):
            sys.exit("%s is missing" % tool)
    os.makedirs(words[2], exist_ok=True)
    print(kinds[words[0]](Build(os.path.abspath(words[1]), *words[3:]), words[2]))


main(sys.argv[1:])

"""What `make install`, `make deb` and `make dist` make of the program that is tested."""

import glob
import os
import stat
import subprocess
import tempfile

from support.cases import case, cases, sentence
from support.locales import turkish_if_it_can_be_had
from support.packages import FIXED, lacking, linked_program, sum_of
from support.program import PROGRAM, ROOT, wants_same
from support.skipping import Skipped, needs


SCRIPT = "file a.txt 48656C6C6F\nok 6\n"
INSTALLED = {
    "bin/ymodem": 0o755,
    "bin/ymodem-tty": 0o755,
    "bin/ymodem-judge": 0o755,
    "share/man/man1/ymodem.1": 0o644,
    "share/man/man1/ymodem-tty.1": 0o644,
    "share/man/man1/ymodem-judge.1": 0o644,
    "share/bash-completion/completions/ymodem": 0o644,
    "share/bash-completion/completions/ymodem-tty": 0o644,
    "share/bash-completion/completions/ymodem-judge": 0o644,
    "share/zsh/site-functions/_ymodem": 0o644,
    "share/zsh/site-functions/_ymodem-tty": 0o644,
    "share/zsh/site-functions/_ymodem-judge": 0o644,
    "share/fish/vendor_completions.d/ymodem.fish": 0o644,
    "share/fish/vendor_completions.d/ymodem-tty.fish": 0o644,
    "share/fish/vendor_completions.d/ymodem-judge.fish": 0o644,
}

# What packages are made of.
PARTS = ("packaging", "tools", "share", "docs", "examples", "README.md", "CONTRIBUTING.md")


def played(program):
    return subprocess.run(
        [program, "play"], input=SCRIPT, capture_output=True, text=True, check=True
    ).stdout


def below(top):
    """The files below a folder, with their modes."""
    return {
        os.path.relpath(it, top): stat.S_IMODE(os.stat(it).st_mode)
        for it in glob.glob(top + "/**", recursive=True)
        if os.path.isfile(it)
    }


@sentence("make install, with umask 077 and a space in the folder")
def test_is_installed():
    """Each file is there and everybody may read it, whatever the umask is, in a folder with a space
    in its name."""
    with tempfile.TemporaryDirectory(prefix="ymodem install ") as top:
        words = [
            "sh",
            "-c",
            'umask 077; exec "$@"',
            "",
            os.path.join(ROOT, "tools", "install.sh"),
            PROGRAM,
            top + "/usr local",
        ]
        subprocess.run(words, check=True)
        wants_same(below(top + "/usr local"), INSTALLED)
        wants_same({"played": played(top + "/usr local/bin/ymodem")}, {"played": played(PROGRAM)})


@cases(
    case("make install, with CDPATH of the working folder", "."),
    case("make install, with CDPATH of a folder that has tools, too", "{0}"),
)
def test_is_installed_with_cdpath(path):
    """A shell that looks elsewhere for folders, and tells which it took, installs the same."""
    with tempfile.TemporaryDirectory(prefix="ymodem-") as top:
        os.mkdir(top + "/tools")
        subprocess.run(
            ["tools/install.sh", PROGRAM, top + "/usr"],
            cwd=ROOT,
            env={**os.environ, "CDPATH": path.format(top)},
            check=True,
        )
        wants_same(below(top + "/usr"), INSTALLED)


def copied(to, umask):
    """A copy of what packages are made of, as a user with this umask has it."""
    os.mkdir(to)
    for name in PARTS:
        subprocess.run(
            [
                "sh",
                "-c",
                'umask "$1"; exec cp -R "$2" "$3"',
                "",
                umask,
                os.path.join(ROOT, name),
                to,
            ],
            check=True,
        )
    return to


def packed(kind, tree, umask, **environment):
    words = [
        "sh",
        "-c",
        'umask "$1"; shift; exec "$@"',
        "",
        umask,
        tree + "/packaging/package.py",
        kind,
        linked_program(),
        tree + "/out",
    ]
    return subprocess.run(
        words, env={**FIXED, **environment}, capture_output=True, text=True, check=True
    ).stdout.strip()


@cases(
    case("two Debian packages are the same", "deb", ("dpkg-deb",)),
    case("two tar files are the same", "dist"),
)
def test_is_same_twice(kind, tools=()):
    """Two packages of one tree, made in different folders and by users with different umasks and
    languages, are the same byte for byte."""
    needs("strip", "readelf", *tools)
    linked_program()
    with tempfile.TemporaryDirectory(prefix="ymodem-") as top:
        trees = [
            (copied(top + "/one", "022"), "022", {"LC_ALL": "C"}),
            (copied(top + "/two of them", "077"), "077", turkish_if_it_can_be_had()),
        ]
        os.utime(trees[1][0] + "/README.md", (10**9, 10**9))
        # Files are older than one of these commits, and younger than the other one.
        for epoch in ("1700000000", "4000000000"):
            assert (
                len(
                    {
                        sum_of(packed(kind, tree, umask, SOURCE_DATE_EPOCH=epoch, **language))
                        for tree, umask, language in trees
                    }
                )
                == 1
            ), "they differ, for a commit at %s" % epoch


def version_of(tree):
    """The version of a package of this tree, by its commit."""
    named = {it: os.environ[it] for it in os.environ if it not in ("VERSION", "SOURCE_DATE_EPOCH")}
    words = [tree + "/packaging/package.py", "dist", linked_program(), tree + "/out"]
    made = subprocess.run(words, env=named, capture_output=True, text=True, check=True).stdout
    return os.path.basename(made).removeprefix("ymodem-").removesuffix("-linux-x86-64.tar.gz\n")


@sentence("a package of a later commit of the same day is an upgrade")
def test_versions_are_in_order():
    """A commit's sum says nothing of when it was made."""
    needs("strip", "readelf", "git", "dpkg")
    with tempfile.TemporaryDirectory(prefix="ymodem-") as top:
        tree = copied(top + "/one", "022")
        command = "crates/ym_words/src/command.rt"
        subprocess.run(["cp", "--parents", command, tree], cwd=ROOT, check=True)
        someone = ["-c", "user.name=a", "-c", "user.email=a@example.org"]
        git = ["git", "-C", tree, *someone]
        subprocess.run([*git, "init", "-q"], check=True)
        subprocess.run([*git, "add", "."], check=True)
        versions = []
        for minute in range(6):
            when = {"GIT_COMMITTER_DATE": "2026-11-28T09:%02d:00+0000" % minute}
            words = [*git, "commit", "-q", "--allow-empty", "-m", "one more"]
            subprocess.run(words, env={**os.environ, **when}, check=True)
            versions.append(version_of(tree))
    for one, other in zip(versions, versions[1:]):
        words = ["dpkg", "--compare-versions", one, "lt", other]
        assert subprocess.run(words, check=False).returncode == 0, "%s, then %s" % (one, other)


@sentence("the Debian package has its files, and its program plays")
def test_deb_is_well():
    """The package has the files in their places, needs the C library alone, and its program
    plays."""
    needs("strip", "readelf", "dpkg-deb")
    with tempfile.TemporaryDirectory(prefix="ymodem-") as top:
        file = packed("deb", copied(top + "/one", "022"), "022")
        fields = subprocess.run(
            ["dpkg-deb", "--field", file, "Depends", "Suggests"],
            capture_output=True,
            text=True,
            check=True,
        ).stdout
        assert (
            fields.startswith("Depends: libc6 (>= 2.")
            and "," not in fields.splitlines()[0]
            and "Suggests: picocom" in fields
        ), "its fields are %r" % fields
        subprocess.run(["dpkg-deb", "--extract", file, top + "/root"], check=True)
        wanted = {
            it.replace("site-functions", "vendor-completions") + (".gz" if "/man/" in it else "")
            for it in INSTALLED
        }
        missing = {it for it in wanted if not os.path.isfile(top + "/root/usr/" + it)}
        assert not missing, "it lacks %s" % sorted(missing)
        wants_same({"played": played(top + "/root/usr/bin/ymodem")}, {"played": played(PROGRAM)})


@cases(
    case("the pages of the Debian package lead somewhere", "deb", "dpkg-deb --extract {0} {1}"),
    case("the pages of the tar file lead somewhere", "dist", "tar --extract --file {0} -C {1}"),
)
def test_pages_lead_somewhere(kind, unpacks):
    """What a page links to, and what it names of docs and examples, is in the package."""
    needs("strip", "readelf", unpacks.split()[0])
    with tempfile.TemporaryDirectory(prefix="ymodem-") as top:
        file = packed(kind, copied(top + "/one", "022"), "022")
        subprocess.run(unpacks.format(file, top).split(), check=True)
        [documents] = glob.glob(top + "/*/share/doc/ymodem")
        missing = lacking(documents)
        assert not missing, "it lacks %s" % missing


@sentence("lintian finds no error and no warning")
def test_lintian_is_silent():
    needs("strip", "readelf", "dpkg-deb", "lintian")
    with tempfile.TemporaryDirectory(prefix="ymodem-") as top:
        file = packed("deb", copied(top + "/one", "022"), "022")
        ran = subprocess.run(
            ["lintian", "--fail-on", "error,warning", file],
            capture_output=True,
            text=True,
            check=False,
        )
        found = [it for it in ran.stdout.splitlines() if it[:2] in ("E:", "W:")]
        assert not found and not ran.returncode, "\n".join(found) or ran.stderr


@sentence("the Debian package is installed below another root, and plays")
def test_runs_in_a_root():
    """dpkg installs it below another root, as on a machine without the toolchain, and takes it away
    again."""
    needs("strip", "readelf", "dpkg", "dpkg-deb")
    if os.geteuid():
        raise Skipped("dpkg --root: only for root")
    with tempfile.TemporaryDirectory(prefix="ymodem-") as top:
        file = packed("deb", copied(top + "/one", "022"), "022")
        root = top + "/root"
        os.makedirs(root + "/var/lib/dpkg/updates")
        os.makedirs(root + "/var/lib/dpkg/info")
        for name in ("status", "available"):
            open(root + "/var/lib/dpkg/" + name, "w").close()
        how = {"capture_output": True, "check": True, "text": True}
        subprocess.run(["dpkg", "--root", root, "--force-depends", "--install", file], **how)
        wants_same({"played": played(root + "/usr/bin/ymodem")}, {"played": played(PROGRAM)})
        subprocess.run(["dpkg", "--root", root, "--force-depends", "--purge", "ymodem"], **how)
        assert not os.path.exists(root + "/usr/bin/ymodem"), "it is still there"


@sentence("what the Makefile calls is there")
def test_tools_exist():
    """What the Makefile calls is there and may be run."""
    names = (
        "tools/prove.py",
        "tools/install.sh",
        "packaging/package.py",
        "docs/pictures/draw.py",
        "share/ymodem-tty",
    )
    missing = [it for it in names if not os.access(os.path.join(ROOT, it), os.X_OK)]
    assert not missing, "missing: %s" % missing

"""`./farey library`, `build` and `install`, in a folder of its own where a small script stands for `rt`."""

import ctypes
import os
import pty
import shutil
import subprocess
import tempfile
import unittest
from pathlib import Path

from . import reckoning as by_hand

#: It proves crates, of which each that isn't `engine` is a program that prints its name and its job. The source of `engine` is a number, and an archive of it
#: has one function that returns the number. `asked` has a line for each time that it was asked to prove or to make the archive. Where there is a
#: file `unproved` it proves nothing of the crate that it names; where there is `edit`, that becomes the source while the archive is made.
RT = r"""#!/bin/sh
if [ "$1" = version ]; then
    echo "kit-of-a-test logic 0123abcd"
    exit
fi
echo "$*" >> asked
source=crates/engine/src/lib.rt
mkdir -p target/stamp target/staticlib target/bin
sum=$(cat $source)
word=$1
shift
case $word in
    check)
        for crate in "$@"; do
            if [ -f unproved ] && [ "$(cat unproved)" = "$crate" ]; then
                echo "rt: $crate NOT PROVED (exit 1, 3 s)"
                exit 1
            fi
            if [ "$(cat target/stamp/$crate 2> /dev/null)" = "$sum" ]; then
                echo "rt: $crate proved (unchanged since it was last proved)"
            else
                echo "$sum" > target/stamp/$crate
                printf '#!/bin/sh\ncat > /dev/null\necho %s "$@"\n' $crate > target/bin/$crate
                chmod +x target/bin/$crate
                echo "rt: $crate proved (1 s)"
            fi
        done
        ;;
    staticlib)
        [ ! -f unmade ] || exit 1
        echo "int farey_number(void) { return $sum; }" > target/number.c
        cc -c -fPIC -o target/number.o target/number.c && rm -f target/staticlib/libengine.a &&
            ar rc target/staticlib/libengine.a target/number.o || exit 1
        [ ! -f edit ] || mv edit $source
        echo "rt: target/staticlib/libengine.a has the functions of engine"
        ;;
esac
"""
#: The programs that the words are made of.
PROGRAMS = ["listing", "query", "farey"]


class Folder(unittest.TestCase):
    """A folder that looks like the repository."""

    def setUp(self):
        self.folder = Path(tempfile.mkdtemp(prefix="farey-library-")).resolve()
        self.addCleanup(shutil.rmtree, self.folder)
        for part in ("bin", "crates/engine/src", "rust/farey", "include", "examples", "python", "target/farey"):
            (self.folder / part).mkdir(parents=True)
        for part in ("farey", "rust/farey/refusals.txt", "include/farey.h", "examples/gamma0-2.txt"):
            shutil.copy(by_hand.REPOSITORY / part, self.folder / part)
        skip = shutil.ignore_patterns("__pycache__")
        for part in ("tools/cli", "python/farey"):
            shutil.copytree(by_hand.REPOSITORY / part, self.folder / part, ignore=skip)
        self.put("crates.txt", "engine:\n" + "".join(f"{name}:\n" for name in PROGRAMS))
        self.put("crates/engine/src/lib.rt", "5")
        self.put("bin/rt", RT)
        (self.folder / "bin/rt").chmod(0o755)

    def put(self, part, text):
        (self.folder / part).write_text(text, "utf-8")

    def run_farey(self, *words, script=None, path=None):
        settings = dict(os.environ, PATH=path or f"{self.folder / 'bin'}{os.pathsep}{os.environ['PATH']}")
        return subprocess.run(
            [script or self.folder / "farey", *words], env=settings, cwd="/", stdin=subprocess.DEVNULL, capture_output=True, text=True, timeout=60
        )

    def asked(self):
        return (self.folder / "asked").read_text("utf-8").splitlines()


class FareyLibrary(Folder):
    def setUp(self):
        super().setUp()
        # something was made here before, so that only the library is made
        self.put("target/farey/whole", "")

    def number(self):
        """What the function in the library returns, by a copy: a library that is open stays as it is."""
        copy = self.folder / f"copy-{self.asked()}-{len(list(self.folder.iterdir()))}.so"
        shutil.copy(self.folder / "target/libfarey.so", copy)
        return ctypes.CDLL(str(copy)).farey_number()

    def test_made_once(self):
        came = self.run_farey("library")
        self.assertEqual((came.returncode, came.stdout), (0, f"{self.folder}/target/libfarey.so\n"), came.stderr)
        self.assertIn("farey: proved engine, 1 of 1", came.stderr)
        self.assertEqual(self.number(), 5)
        # to prove, to see that nothing is left to prove, to make the archive
        self.assertEqual(self.asked(), ["check engine", "check engine", "staticlib engine"])
        again = self.run_farey("library")
        self.assertEqual((again.returncode, again.stdout, again.stderr), (0, came.stdout, ""))
        self.assertEqual(len(self.asked()), 3)

    def test_edited_sources(self):
        self.run_farey("library")
        self.put("crates/engine/src/lib.rt", "6")
        self.assertEqual(self.run_farey("library").returncode, 0)
        self.assertEqual(self.number(), 6)

    def test_edited_meanwhile(self):
        self.put("edit", "7")
        came = self.run_farey("library")
        self.assertEqual(came.returncode, 0, came.stderr)
        self.assertIn("farey: the sources were edited", came.stderr)
        self.assertEqual(self.number(), 7)

    def test_another_library(self):
        """One that was altered, or is gone, is made again; so is the file for pkg-config."""
        self.run_farey("library")
        with open(self.folder / "target/libfarey.so", "ab") as library:
            library.write(b"more")
        before = len(self.asked())
        self.assertEqual(self.run_farey("library").returncode, 0)
        self.assertGreater(len(self.asked()), before)
        self.assertEqual(self.number(), 5)
        (self.folder / "target/libfarey.so").unlink()
        (self.folder / "target/farey.pc").unlink()
        self.assertEqual(self.run_farey("library").returncode, 0)
        self.assertEqual(self.number(), 5)
        self.assertTrue((self.folder / "target/farey.pc").is_file())
        (self.folder / "target/farey.pc").unlink()
        self.assertEqual(self.run_farey("library").returncode, 0)
        self.assertTrue((self.folder / "target/farey.pc").is_file())

    def test_without_a_proof(self):
        self.put("unproved", "engine")
        came = self.run_farey("library")
        self.assertEqual((came.returncode, came.stdout), (1, ""))
        self.assertIn("farey: the crate engine is not proved", came.stderr)
        self.assertFalse((self.folder / "target/libfarey.so").exists())

    def test_without_an_archive(self):
        self.put("unmade", "")
        came = self.run_farey("library")
        self.assertEqual((came.returncode, came.stdout), (1, ""))
        self.assertIn("farey: rt could not make the archive", came.stderr)
        self.assertFalse((self.folder / "target/libfarey.so").exists())

    def test_pkg_config(self):
        """The file begins at its own folder, also when all is moved."""
        self.run_farey("library")
        moved = self.folder / "moved"
        (moved / "include").mkdir(parents=True)
        shutil.copytree(self.folder / "target", moved / "target")
        settings = dict(os.environ, PKG_CONFIG_PATH=str(moved / "target"))
        came = subprocess.run(["pkg-config", "--cflags", "--libs", "farey"], env=settings, capture_output=True, text=True)
        self.assertEqual(came.returncode, 0, came.stderr)
        flags = {flag[:2]: os.path.normpath(flag[2:]) for flag in came.stdout.split()}
        self.assertEqual(flags, {"-I": str(moved / "include"), "-L": str(moved / "target"), "-l": "farey"})
        version = subprocess.run(["pkg-config", "--modversion", "farey"], env=settings, capture_output=True, text=True)
        self.assertEqual(version.stdout, "0.2.0\n")
        kit = subprocess.run(["pkg-config", "--variable=kit", "farey"], env=settings, capture_output=True, text=True)
        self.assertEqual(kit.stdout, "kit-of-a-test logic 0123abcd\n")

    def test_made(self):
        """With --made nothing is proved: it says whether the library is that of the sources as they are."""
        before = self.run_farey("library", "--made")
        self.assertEqual((before.returncode, before.stdout), (1, ""))
        self.assertIn("run ./farey library", before.stderr)
        self.assertFalse((self.folder / "asked").exists())
        self.run_farey("library")
        asked = self.asked()
        after = self.run_farey("library", "--made")
        self.assertEqual((after.returncode, after.stdout), (0, f"{self.folder}/target/libfarey.so\n"), after.stderr)
        self.put("crates/engine/src/lib.rt", "6")
        self.assertEqual(self.run_farey("library", "--made").returncode, 1)
        self.assertEqual(self.asked(), asked)

    def test_version(self):
        self.assertEqual(self.run_farey("--version").stdout, "farey 0.2.0\nthe library hasn't been made here yet (./farey build)\n")
        self.run_farey("library")
        self.assertEqual(self.run_farey("--version").stdout, "farey 0.2.0\nproved by kit-of-a-test logic 0123abcd\n")


class FareyBuild(Folder):
    ALL = {*PROGRAMS, "engine"}

    def test_build(self):
        came = self.run_farey("build")
        self.assertEqual((came.returncode, came.stdout), (0, ""), came.stderr)
        self.assertIn("farey: all of it is proved and compiled", came.stderr)
        asked = self.asked()
        self.assertEqual(set(asked[0].split()[1:]), self.ALL)
        # to prove, to see that nothing is left to prove, to make the archive
        self.assertEqual([line.split()[0] for line in asked], ["check", "check", "staticlib"])
        seen = {path.name for path in (self.folder / "target/farey").glob("seen-*")}
        self.assertLessEqual({f"seen-{name}" for name in (*PROGRAMS, "library")}, seen)
        for word, expected in (("listing", "listing"), ("query", "query"), ("import-wide", "farey import-wide"), ("to-cycles", "farey to-cycles")):
            answer = self.run_farey(word)
            self.assertEqual((answer.stdout, answer.stderr), (expected + "\n", ""))
        self.assertEqual(self.run_farey("gamma0", "11").stdout, "farey import-wide\n")
        self.assertEqual(self.run_farey("library").returncode, 0)
        again = self.run_farey("build")
        self.assertEqual((again.returncode, again.stderr), (0, "farey: all of it is proved and compiled already\n"))
        self.assertEqual(self.asked(), asked)

    def test_the_first_use_of_a_word_makes_all(self):
        came = self.run_farey("listing")
        self.assertEqual((came.returncode, came.stdout), (0, "listing\n"), came.stderr)
        asked = self.asked()
        self.assertEqual(set(asked[0].split()[1:]), self.ALL)
        self.assertEqual(self.run_farey("tower").stdout, "farey tower\n")
        self.assertEqual(self.asked(), asked)
        # later only what the word needs is made again
        self.put("crates/engine/src/lib.rt", "6")
        self.assertEqual(self.run_farey("library").returncode, 0)
        self.assertEqual(self.asked()[len(asked) :], ["check engine", "check engine", "staticlib engine"])

    def test_a_crate_that_is_not_proved(self):
        """The first use makes all; where that fails, the word alone is made and answers. A build doesn't pass then."""
        self.put("unproved", "engine")
        came = self.run_farey("listing")
        self.assertEqual((came.returncode, came.stdout), (0, "listing\n"))
        self.assertIn("farey: the crate engine is not proved", came.stderr)
        built = self.run_farey("build")
        self.assertEqual((built.returncode, built.stdout), (1, ""))
        self.assertIn("farey: the crate engine is not proved", built.stderr)

    def test_how_long_it_takes(self):
        """The time is told from the page of seconds, of those crates that aren't proved yet."""
        (self.folder / "docs").mkdir()
        rows = "".join(f"| {name} | 60 |  |  |\n" for name in (*PROGRAMS, "engine"))
        self.put("docs/CHECK-TIMES.md", rows)
        slow = RT.replace("    check)", "    check)\n        sleep 1.5")
        self.put("bin/rt", slow)
        settings = os.environ.get("RT_JOBS")
        os.environ["RT_JOBS"] = "1"
        try:
            came = self.run_farey("build")
        finally:
            os.environ.pop("RT_JOBS") if settings is None else os.environ.update(RT_JOBS=settings)
        self.assertIn("made of 4 crates; those that aren't proved yet are proved now, about 4 min\n", came.stderr)
        self.assertIn("farey: 0 of 4 are done, about 4 min left, next: ", came.stderr)


class FareyInstall(Folder):
    def test_install(self):
        site = self.folder / "a site"
        came = self.run_farey("install", "--prefix", str(site))
        self.assertEqual((came.returncode, came.stdout), (0, f"{site}/bin/farey\n"), came.stderr)
        self.assertEqual((site / "include/farey.h").read_bytes(), (self.folder / "include/farey.h").read_bytes())
        self.assertEqual((site / "lib/libfarey.so").read_bytes(), (self.folder / "target/libfarey.so").read_bytes())
        self.assertTrue((site / "lib/libfarey.a").is_file())
        settings = dict(os.environ, PKG_CONFIG_PATH=str(site / "lib/pkgconfig"))
        flags = subprocess.run(["pkg-config", "--variable=libdir", "farey"], env=settings, capture_output=True, text=True)
        self.assertEqual(os.path.normpath(flags.stdout.strip().replace("\\ ", " ")), str(site / "lib"))
        # no prover, no compiler and no repository: only the programs of the system
        shutil.rmtree(self.folder / "crates")
        (self.folder / "bin/rt").unlink()
        for script in (site / "bin/farey", site / "libexec/farey/farey"):
            answer = self.run_farey("listing", script=script)
            self.assertEqual((answer.returncode, answer.stdout, answer.stderr), (0, "listing\n", ""))
        self.assertEqual(self.run_farey("gamma", "5", script=site / "bin/farey").stdout, "farey import-wide\n")
        self.assertEqual(self.run_farey("library", script=site / "bin/farey").stdout, f"{site}/lib/libfarey.so\n")
        self.assertIn("proved by kit-of-a-test", self.run_farey("--version", script=site / "bin/farey").stdout)
        self.assertEqual(self.run_farey("build", script=site / "bin/farey").returncode, 1)
        # one that was altered isn't run
        with open(site / "libexec/farey/target/bin/listing", "a") as program:
            program.write("# more\n")
        altered = self.run_farey("listing", script=site / "bin/farey")
        self.assertEqual((altered.returncode, altered.stdout), (1, ""))
        self.assertIn("isn't the one that was installed", altered.stderr)


class Terminal(Folder):
    """On a terminal a word says what it waits for; in a pipe it doesn't."""

    def test_what_is_awaited(self):
        self.run_farey("build")
        settings = dict(os.environ, PATH=f"{self.folder / 'bin'}{os.pathsep}{os.environ['PATH']}")
        master, slave = pty.openpty()
        try:
            child = subprocess.Popen(
                [self.folder / "farey", "query"], env=settings, stdin=slave, stdout=subprocess.PIPE, stderr=subprocess.PIPE, text=True
            )
            said = child.stderr.readline()
            # the end of what is typed
            os.write(master, b"\x04")
            answer, rest = child.communicate(timeout=60)
        finally:
            os.close(master)
            os.close(slave)
        self.assertEqual(said, "farey: query waits for a symbol, and then the entries of A and of B (end with Ctrl-D; ./farey --help query has an example)\n")
        self.assertEqual((answer, rest, child.returncode), ("query\n", "", 0))
        piped = self.run_farey("query")
        self.assertEqual((piped.stdout, piped.stderr), ("query\n", ""))

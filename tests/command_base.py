"""What the tests of the command ./pod1 share: a run of it, a folder for files, and a copy of it
with stand-ins for the proved program and for rt."""

import shutil
import stat
import subprocess
import sys
import tempfile
import unittest
from pathlib import Path

from account_cases import header_line
from refused_texts import DAY, text_of
from vectors import REPOSITORY

sys.path.insert(0, str(REPOSITORY / "command"))

BEECH = REPOSITORY / "examples" / "beech.txt"
PROGRAM = REPOSITORY / "target" / "bin" / "pod1"
SECONDS = 60  # for a run to end
SEASON = text_of(DAY)
ONE_DAY = header_line().decode()
USAGE = "pod1: ./pod1 --help has all of it\n"


def run(*words, root=REPOSITORY, text=None, **options):
    """Status, standard output and standard error."""
    done = subprocess.run(
        [root / "pod1", *words],
        input=text,
        capture_output=True,
        timeout=SECONDS,
        check=False,
        **options,
    )
    return (
        done.returncode,
        done.stdout.decode(errors="surrogateescape"),
        done.stderr.decode(errors="surrogateescape"),
    )


def report(text):
    return subprocess.run([PROGRAM], input=text, stdout=subprocess.PIPE, check=True).stdout.decode()


def to_do(*rows):
    return "pod1: what to do:  " + "; ".join(f"./pod1 explain {row}" for row in rows) + "\n"


class Case(unittest.TestCase):
    maxDiff = None

    def setUp(self):
        self.folder = Path(tempfile.mkdtemp())
        self.addCleanup(shutil.rmtree, self.folder, True)

    def write(self, name, text):
        path = self.folder / name
        path.write_bytes(text)
        return path

    def fails(self, message, *words, **options):
        """Status 2 with this message alone, and nothing on standard output."""
        self.assertEqual(run(*words, **options), (2, "", f"pod1: {message}\n"))

    def misused(self, message, *words, **options):
        """The same with the line that points to --help."""
        self.assertEqual(run(*words, **options), (2, "", f"pod1: {message}\n{USAGE}"))


class Copied(Case):
    """A copy of the command over a crates.txt of its own."""

    def setUp(self):
        super().setUp()
        self.root = self.folder / "copy"
        shutil.copytree(
            REPOSITORY / "command",
            self.root / "command",
            ignore=shutil.ignore_patterns("__pycache__"),
        )
        shutil.copy2(REPOSITORY / "pod1", self.root / "pod1")
        listed = "exact:\ntrees: exact\npod1: trees exact io\nother:\n"
        (self.root / "crates.txt").write_text(f"# NAME: what it stands on\n{listed}")
        for crate in ("exact", "trees", "pod1", "other"):
            (self.root / "crates" / crate / "src").mkdir(parents=True)
            (self.root / "crates" / crate / "src" / "lib.rt").write_text("")

    def script(self, path, *lines):
        path.parent.mkdir(parents=True, exist_ok=True)
        path.write_text("\n".join(("#!/bin/sh", *lines)) + "\n")
        path.chmod(path.stat().st_mode | stat.S_IXUSR)

    def program(self, *lines):
        """A stand-in that counts as built."""
        self.script(self.root / "target" / "bin" / "pod1", *lines)

    def call(self, *words, **options):
        return run(*words, root=self.root, cwd=self.folder, **options)

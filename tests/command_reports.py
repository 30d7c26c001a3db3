"""Reports, options and refusals of ./pod1, and its own tables against the specification's; run by
tests/command.py."""

import os
import re
import shutil
import subprocess
import unittest

import paper
import refused_texts
import report_cases
from command_base import BEECH, SEASON, SECONDS, Case, report, run, to_do
from refused_texts import DAY, MENDABLE, REFUSED
from vectors import REPOSITORY

import explanations
import frames
import readings
import refusals
import texts
import trees


class Reports(Case):
    def test_one_text(self):
        self.assertEqual(run(BEECH), (0, report(BEECH.read_bytes()), ""))

    def test_standard_input(self):
        for words in ([], ["-"], ["--", "/dev/stdin"]):
            self.assertEqual(run(*words, text=SEASON), (0, report(SEASON), ""))

    def test_several_texts_under_their_names(self):
        self.write("a name with spaces", SEASON)
        self.write("-n", SEASON[:-1])
        name = os.fsdecode(b"\xff.txt")
        self.write(name, b"0104\n")
        status, out, err = run(
            "a name with spaces", "-", "--", "-n", name, cwd=self.folder, text=SEASON
        )
        blocks = (
            ("a name with spaces", report(SEASON)),
            ("standard input", report(SEASON)),
            ("-n", report(SEASON)),
            (name, "refused 1 line 1\n"),
        )
        self.assertEqual(out, "\n".join(f"==> {label} <==\n{lines}" for label, lines in blocks))
        self.assertEqual(
            err, f"{name} line 1: the line has 4 characters; {refused_texts.LENGTHS}\n" + to_do(1)
        )
        self.assertEqual(status, 1)

    def test_twenty_texts(self):
        names = [f"{n}.txt" for n in range(20)]
        for name in names:
            self.write(name, SEASON)
        expected = "\n".join(f"==> {name} <==\n{report(SEASON)}" for name in names)
        self.assertEqual(run(*names, cwd=self.folder), (0, expected, ""))

    def test_unreadable_among_others(self):
        self.write("day", SEASON)
        self.write("cut", SEASON[:-7])
        (self.folder / "folder").mkdir()
        status, out, err = run("missing", "cut", "folder", "day", cwd=self.folder)
        self.assertEqual(
            (status, out), (2, f"==> cut <==\nrefused 11 line 26\n\n==> day <==\n{report(SEASON)}")
        )
        self.assertEqual(err.splitlines()[0], "pod1: missing: there is no such file")
        self.assertEqual(err.splitlines()[2], "pod1: folder: this is a directory, not a text")

    def test_worst_status(self):
        self.write("day", SEASON)
        self.write("cut", SEASON[:-7])
        for names, status in (
            (["day", "cut"], 1),
            (["cut", "day"], 1),
            (["day", "missing"], 2),
            (["missing", "cut"], 2),
        ):
            self.assertEqual(run(*names, cwd=self.folder)[0], status)

    def test_no_permission(self):
        path = self.write("closed", SEASON)
        path.chmod(0)
        self.folder.chmod(0o755)
        options = {"user": 65534, "env": {"PATH": "/usr/bin:/bin"}} if os.getuid() == 0 else {}
        if not self.can_run(options):
            self.skipTest("nobody cannot run the command here")
        self.fails(f"{path}: it may not be read: permission denied", path, **options)

    def can_run(self, options):
        try:
            return run(BEECH, **options)[0] == 0
        except OSError:
            return False

    def test_closed_input_and_directory(self):
        closed = ["sh", "-c", 'exec "$0" <&-', REPOSITORY / "pod1"]
        done = subprocess.run(closed, capture_output=True, timeout=SECONDS, check=False)
        self.assertEqual(
            (done.returncode, done.stdout, done.stderr),
            (2, b"", b"pod1: standard input: cannot be read: it is closed\n"),
        )
        folder = os.open(self.folder, os.O_RDONLY)
        done = subprocess.run(
            [REPOSITORY / "pod1"], stdin=folder, capture_output=True, timeout=SECONDS, check=False
        )
        os.close(folder)
        self.assertEqual(
            (done.returncode, done.stdout, done.stderr),
            (2, b"", b"pod1: standard input: this is a directory, not a text\n"),
        )

    def test_reader_that_goes(self):
        process = subprocess.Popen(
            [REPOSITORY / "pod1", BEECH], stdout=subprocess.PIPE, stderr=subprocess.PIPE
        )
        process.stdout.close()
        self.assertEqual(process.stderr.read(), b"")
        process.stderr.close()
        self.assertEqual(process.wait(SECONDS), 141)

    def test_output_that_cannot_be_written(self):
        for end, message in (
            (">/dev/full", "cannot be used: No space left on device"), (">&-", "it is closed")
        ):
            done = subprocess.run(
                ["sh", "-c", f'exec "$0" "$1" {end}', REPOSITORY / "pod1", BEECH],
                capture_output=True,
                timeout=SECONDS,
                check=False,
            )
            self.assertEqual(
                (done.returncode, done.stderr.decode()), (2, f"pod1: standard output: {message}\n")
            )

    def test_endless_input(self):
        with subprocess.Popen(["yes"], stdout=subprocess.PIPE) as endless:
            done = subprocess.run(
                [REPOSITORY / "pod1"],
                stdin=endless.stdout,
                capture_output=True,
                timeout=SECONDS,
                check=False,
            )
            endless.kill()
        self.assertEqual((done.returncode, done.stdout), (1, b"refused 1 line 1\n"))

    def test_by_a_link_and_from_elsewhere(self):
        link = self.folder / "linked"
        link.symlink_to(REPOSITORY / "pod1")
        done = subprocess.run(
            [link, BEECH], capture_output=True, cwd="/", timeout=SECONDS, check=False
        )
        self.assertEqual((done.returncode, done.stdout.decode()), (0, report(BEECH.read_bytes())))


class Options(Case):
    def test_help(self):
        status, out, err = run("--help")
        self.assertEqual((status, err), (0, ""))
        self.assertEqual(run("compare", "-h")[1], out)
        self.assertLessEqual(max(map(len, out.splitlines())), 100)
        for word in (
            *"explain encode chart compare stretch place stand".split(),
            *(reading.column for reading in readings.ALL),
            "Exit status",
            "undecided",
        ):
            self.assertIn(word, out)

    def test_version(self):
        layout = re.search(
            r"#define POD1_VERSION (\d+)", (REPOSITORY / "include" / "pod1.h").read_text()
        )[1]
        self.assertEqual(run("--version"), (0, f"pod1 1.0, account layout {layout}\n", ""))

    def test_wrong_words(self):
        self.misused("-n is no option; a file of that name is ./-n, or stands behind --", "-n")
        self.misused(
            "--colour is no option; a file of that name is ./--colour, or stands behind --",
            BEECH,
            "--colour",
        )
        self.misused("standard input, -, can be read once", "-", "-", text=SEASON)

    def test_names_of_commands(self):
        self.write("explain", SEASON)
        self.assertEqual(run("--", "explain", cwd=self.folder), (0, report(SEASON), ""))

    def test_python_is_missing(self):
        tools = self.folder / "bin"
        tools.mkdir()
        for tool in ("bash", "env", "readlink", "dirname"):
            (tools / tool).symlink_to(shutil.which(tool))
        message = (
            "python3 is missing, which runs this command: install it (Debian: apt install python3)"
        )
        self.fails(message, BEECH, env={"PATH": str(tools)})


class Refusals(Case):
    def test_every_row_and_reason(self):
        for n, (text, _) in enumerate(REFUSED):
            self.write(f"{n}.txt", text)
        status, out, err = run(*(f"{n}.txt" for n in range(len(REFUSED))), cwd=self.folder)
        rows = [report(text) for text, _ in REFUSED]
        self.assertEqual(out, "\n".join(f"==> {n}.txt <==\n{row}" for n, row in enumerate(rows)))
        self.assertEqual(
            err.splitlines()[:-1], [f"{n}.txt {message}" for n, (_, message) in enumerate(REFUSED)]
        )
        self.assertEqual(status, 1)
        self.assertEqual({int(row.split()[1]) for row in rows}, {*range(1, 12), 15, 17, 18, 24, 25})

    def test_hints(self):
        for n, (text, message, hints) in enumerate(MENDABLE):
            path = self.write(f"windows {n}.txt", text)
            lines = [f"{path} {message}", *(hint.replace("{name}", f"'{path}'") for hint in hints)]
            self.assertEqual(
                run(path),
                (1, report(text), "\n".join(lines) + "\n" + to_do(report(text).split()[1])),
            )
            self.assertEqual(path.read_bytes(), text)

    def test_sentences_bear_every_row_out(self):
        """Of texts by hand and damaged in every way, the reason found is one of the row's; none is
        left with the row's own sentence."""
        refused = set()
        for text in report_cases.written_by_hand():
            printed = report_cases.report(text).decode()
            if printed.startswith("refused"):
                _, row, _, at = printed.split()
                lines = texts.lines_of(text)
                line = lines[int(at) - 1] if int(at) <= len(lines) else None
                self.assertTrue(
                    explanations.sentence_of(
                        int(row), frames.season_of(lines[: int(at) - 1]), line
                    ),
                    (row, text[:200]),
                )
                refused.add(int(row))
        self.assertEqual(refused, {*range(1, 12), 15, 17, 18, 24, 25})

    def test_nothing_is_invented(self):
        """A line that does not bear a row out leaves the row's own sentence."""
        season = frames.season_of(DAY[:1])
        for row in explanations.SENTENCES:
            self.assertIsNone(explanations.sentence_of(row, season, DAY[1]), row)
        for row in refusals.ROWS:
            self.assertEqual(
                explanations.with_row(None, row), f"{refusals.ROWS[row].says} (row {row})"
            )
        self.assertIsNone(frames.season_of([b"0104"]))
        self.assertIsNone(explanations.sentence_of(9, None, DAY[1]))

    def test_explain(self):
        for row in refusals.ROWS:
            status, out, err = (
                run("explain", str(row)) if row in (1, 10, 26) else (0, refusals.text_of(row), "")
            )
            self.assertEqual((status, err, out), (0, "", refusals.text_of(row)))
            self.assertTrue(out.startswith(f"Row {row}: {refusals.ROWS[row].says}.\n"))
        for words in ([], ["0"], ["27"], ["ten"], ["1", "2"], ["²"], ["+1"], [5000 * "1"]):
            self.misused(
                "explain takes the number of a row, 1 to 26: ./pod1 explain 10", "explain", *words
            )


class Tables(unittest.TestCase):
    """The command's own tables against the specification's and the tests'."""

    def test_rows(self):
        page = (REPOSITORY / "docs" / "SPECIFICATION.md").read_text()
        advice = " ".join(page.split("**What to do**", 1)[1].split("\n## ", 1)[0].split())
        said = dict(re.findall(r"- \*\*(\d+)\.\*\* (.*?)(?= - \*\*|$)", advice))
        self.assertEqual(said, {str(number): self.said(number) for number in refusals.ROWS})

    def said(self, number):
        """A row's advice as the page has it."""
        row = refusals.advice(number, refusals.ROWS[number])
        forester = "" if row.forester == refusals.NOTHING else f"Forester: {row.forester}. "
        return f"{forester}Maker: {row.maker}."

    def test_trees(self):
        names = {
            int(line.split("|")[1]): line.split("|")[2].lower()
            for line in paper.TABLE.strip().splitlines()
        }
        self.assertEqual(trees.NAMES, {**names, 7: "a laboratory's own tree"})
        self.assertEqual(
            {number: sum(ramps) for number, ramps in trees.RAMPS.items()}, {**paper.RAMPS, 7: 0}
        )
        self.assertEqual(
            trees.WATER,
            {number for number in paper.NUMBERS if paper.measure_of(number) == paper.WATER},
        )

    def test_frames(self):
        self.assertEqual(
            (frames.WIDTHS, frames.DIGITS, frames.HOURS),
            (paper.WIDTHS, paper.DIGITS, paper.HOUR_KINDS),
        )

    def test_ranges(self):
        for kind in frames.HOURS:
            for tree in trees.NAMES:
                limits = tuple(
                    (reading.low, reading.high) for reading in readings.of_hour(kind, tree)
                )
                self.assertEqual(limits, paper.limits(kind, paper.measure_of(tree)))
        self.assertEqual(
            tuple((reading.low, reading.high) for reading in readings.PARAMETERS),
            tuple(paper.PARAMETER_LIMITS),
        )

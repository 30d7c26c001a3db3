"""The proved program behind compare, stretch, place and stand, on cases whose answers the scripts
beside this one work out by themselves, and on those of tests/runs; run by tests/command.py."""

import subprocess
from itertools import islice

import compare_cases
import sections
import stretch_cases
from account_cases import header_line, warmth_line
from command_base import BEECH, PROGRAM, SEASON, Case, report, run
from local_trees import parameters_line
from refused_texts import DAY, text_of
from vectors import REPOSITORY

# as Rattle's own compiler builds it: rt ci leaves it, and ./test puts it beside the other, as new
BY_RATTLE = PROGRAM.with_name("pod1.by-rattle")
RUNS = REPOSITORY / "tests" / "runs"  # of a call each: words (args), files, what it prints (stdout)
CALLS = ("compare", "place", "stand", "stretch")
NO_CALLS = ((), ("",), ("report",), ("comparE", "a"), ("stretchs",), ("place ",), ("--", "stand"))
HEADER = SEASON[:20].decode()
TREES = ("03", "04", "05", "06")  # of one soil measure
PLACES = 400  # places tried
SHORT = 100_000  # bytes of a text that is tried


def answer(call, *words, program=PROGRAM, **options):
    command = [program, call, *map(str, words)]
    return subprocess.run(command, stdout=subprocess.PIPE, check=True, **options).stdout


def is_as_new():
    """Both builds of the program are of one run of ./test."""
    return BY_RATTLE.exists() and BY_RATTLE.stat().st_mtime_ns == PROGRAM.stat().st_mtime_ns


def compared(first, second, tolerance):
    """The lines that the comparison's script asks for."""
    said, line = compare_cases.compare(first, second, tolerance)
    words = said.split()
    if words[0] == b"differ":
        return b" ".join(words[1:3]) + b"\n" + (line + b"\n" if line else b"")
    if words[0] == b"text":
        return b"text %b refused %b line %b\n" % (words[1], words[3], words[5])
    return b"refused 19\n"


def stretched(text, days):
    """The line that the stretch's script asks for, with room enough."""
    words = stretch_cases.answer(text, days, stretch_cases.WHOLE)[0].split()
    if words[0] == "found":
        return f"{words[1]} {words[2]}\n"
    said = {"none": "none yet", "row": f"refused {words[1]}"}
    return said.get(words[0], " ".join(words)) + "\n"


class RealCalls(Case):
    def hold_stored_runs(self, program):
        self.assertEqual(tuple(sorted(folder.name for folder in RUNS.iterdir())), CALLS)
        for call in CALLS:
            words = (RUNS / call / "args").read_text().splitlines()
            said = (RUNS / call / "stdout").read_bytes()
            self.assertEqual(answer(call, *words, program=program, cwd=RUNS / call), said)

    def test_stored_runs(self):
        self.hold_stored_runs(PROGRAM)

    def test_stored_runs_by_rattle(self):
        """As Rattle's own compiler builds the program; a build that is left of other sources is
        not run."""
        if not is_as_new():
            self.skipTest(f"{BY_RATTLE} is not there, or of another build; ./test makes it")
        self.hold_stored_runs(BY_RATTLE)

    def test_report(self):
        """Without words, and with a first word that names no call."""
        said = report(SEASON).encode()
        for words in NO_CALLS:
            done = subprocess.run([PROGRAM, *words], input=SEASON, capture_output=True, check=True)
            self.assertEqual(done.stdout, said)

    def test_compare(self):
        for first, second, tolerance in compare_cases.cases():
            if max(len(first), len(second)) < SHORT:
                files = self.write("first", first), self.write("second", second)
                said = answer("compare", *files, tolerance)
                self.assertEqual(said, compared(first, second, tolerance))

    def test_stretch(self):
        for text, days, _ in islice(stretch_cases.cases(), 0, None, 3):
            if len(text) < SHORT:
                said = answer("stretch", days, self.write("text", text)).decode()
                self.assertEqual(said, stretched(text, days))

    def test_place(self):
        given, answers = (text.decode().splitlines() for text in sections.stored("dates"))
        for row, said in islice(zip(given, answers), 0, None, max(1, len(given) // PLACES)):
            _, second, *line = said.split()
            asked = f"refused {second}\n" if said.startswith("row") else f"{line[0]}\n"
            words = (int(word, 16) for word in row.split())
            self.assertEqual(answer("place", *words).decode(), asked)

    def test_stand(self):
        """Each account's line is the report's of the text with its header."""
        text = BEECH.read_bytes()
        headers = [text[:2] + tree.encode() + text[4:20] for tree in TREES]
        asked = "".join(report(header + text[20:]).splitlines(True)[0] for header in headers)
        said = answer("stand", BEECH, *(header.decode() for header in headers))
        self.assertEqual(said.decode(), asked)

    def stand(self, text, *headers):
        return answer("stand", self.write("text", text), *headers)

    def test_stand_refused(self):
        """By its own header as the report; a text without a line ends at once."""
        wrong = SEASON.replace(b"01F4", b"1389", 1)
        for text in (SEASON[:-7], wrong, SEASON + b"030018\n", SEASON[:21]):
            self.assertEqual(self.stand(text, HEADER).decode(), report(text))
        # what is passed over is a frame, once and in its turn
        for text, said in (
            (2 * SEASON[:21] + SEASON, b"refused 4 line 2\n"),
            (b"01 this is no header\n07zz\n" + SEASON[21:], b"refused 2 line 1\n"),
        ):
            self.assertEqual(self.stand(text, HEADER), said)
            self.assertEqual(report(text).encode(), said)
        self.assertEqual(self.stand(b"", HEADER), b"refused 11 line 1\n")
        self.assertEqual(self.stand(SEASON, HEADER, "0104"), b"refused 1 header 2\n")
        self.assertEqual(self.stand(SEASON), b"refused 22\n")

    def says(self, status, said, *words):
        """The command's status and standard output."""
        self.assertEqual(run(*words)[:2], (status, said))

    def test_stand_own_frames(self):
        """A frame of the text's own that comes a second time, in the report's words."""
        own = [header_line(tree=7, last=40), parameters_line(), warmth_line()]
        for count in range(1, 4):
            text = self.write("text", text_of([*own[:count], own[count - 1], *DAY[1:]]))
            status, said, told = run(text)
            self.assertEqual((status, said), (1, f"refused 4 line {count + 1}\n"))
            self.assertEqual(run("stand", text, HEADER), (status, said, told))

    def test_by_the_command(self):
        season, changed = self.write("a season", SEASON), SEASON.replace(b"01F4", b"0200", 1)
        other, line = self.write("other", changed), changed.split(b"\n")[1].decode()
        self.says(0, f"1 0\n{line}\n", "compare", season, other, "11")
        self.says(0, "none yet\n", "stretch", "2", season)
        self.says(0, "0104016D007801150208\n", "place", "4", "365", "520", "600", "0")
        self.says(1, "refused 14\n", "place", "6", "365", "520", "600", "0")
        self.says(0, report(SEASON).splitlines(True)[0], "stand", season, HEADER)

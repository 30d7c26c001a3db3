"""compare, stretch, place and stand over stand-ins of the program, and the first build over a
stand-in of rt; run by tests/command.py."""

import os
import shutil
import signal
import subprocess
import sys
import time
from pathlib import Path

import refused_texts
from account_cases import header_line, warmth_line
from command_base import ONE_DAY, SEASON, SECONDS, USAGE, Copied, report, to_do
from local_trees import parameters_line
from refused_texts import DAY, text_of

import refusals

# texts whose own frames are refused: the last line's row, and what is said of it
OWN, HOUR = header_line(tree=7, last=40), refused_texts.hour_line()
PARAMETERS = "a frame of parameters (kind 07)"
WARM = "a frame of leaf age by warmth (kind 08)"
BEECH = "belongs to tree 7, and the header names tree 4 (beech)"
DUE = "day 1 hour 0 was due"
OWN_FRAMES = (
    ([OWN, parameters_line(), parameters_line()], 4, f"{PARAMETERS} comes a second time; {DUE}"),
    (
        [OWN, parameters_line(), warmth_line(), warmth_line()],
        4,
        f"{WARM} comes a second time; {DUE}",
    ),
    ([OWN, parameters_line(), OWN], 4, f"a header (kind 01) comes a second time; {DUE}"),
    ([OWN, HOUR], 4, f"an hour (kind 02) comes before the parameters; {PARAMETERS} was due"),
    ([header_line(tree=4, last=40), warmth_line()], 4, f"{WARM} {BEECH}; {DUE}"),
    ([parameters_line()], 4, f"{PARAMETERS} comes first; the header (kind 01) was due"),
    (
        [OWN, parameters_line(f1=30, f4=30)],
        7,
        (
            "from day 1 to day 40 are 39 days; tree 7 (a laboratory's own tree) needs 30 for its "
            "leaves to grow and 30 for them to age"
        ),
    ),
    ([header_line(level=0)], 8, "critical level 0 mmol m⁻² is outside 0.01 to 100"),
)
# of another tree and period
WORDS = (
    header_line(tree=4, first=105, last=297).decode(),
    f"{header_line(tree=7, first=9, last=99).decode()},{parameters_line().decode()}",
)


class Calls(Copied):
    def answers(self, call, lines):
        """The stand-in keeps its words and prints these lines; the first word is the call."""
        keep = f'for word; do printf "%s\\n" "$word"; done >"{self.folder}/words"'
        self.program(f'[ "$1" = {call} ] || exit 0', "shift", keep, f"printf '{lines}'")

    def words(self):
        """Those after the call."""
        return (self.folder / "words").read_text().splitlines()

    def not_called(self, message, *words):
        """Usage: status 2, and the program is not asked."""
        self.assertEqual(self.call(*words), (2, "", f"pod1: {message}\n{USAGE}"))
        self.assertFalse((self.folder / "words").exists())

    def test_compare(self):
        for name in ("first", "-second"):
            self.write(name, SEASON)
        line = "0200010C025800000000010E03E8012C03E8"
        for answer in ("0 0\\n", f"3 4000\\n{line}\\n"):
            self.answers("compare", answer)
            self.assertEqual(
                self.call("compare", "first", "--", "-second", "020"),
                (0, answer.replace("\\n", "\n"), ""),
            )
            self.assertEqual(self.words(), ["first", "-second", "020"])
        self.answers("compare", "0 0\\n")
        self.assertEqual(
            self.call("compare", "-", "first", "99999999999999999999", text=SEASON)[0], 0
        )
        self.assertEqual(self.words(), ["/dev/stdin", "first", "99999999999999999999"])

    def test_compare_refused(self):
        self.write("first", SEASON)
        self.write("second", SEASON[:-7])
        self.answers("compare", "text 2 refused 11 line 26\\n")
        said = (
            "second line 26: the text ends after 24 of 24 hours, without an end frame; the end "
            "frame (kind 03) was due (row 11)\n"
        )
        self.assertEqual(
            self.call("compare", "first", "second", "20"),
            (1, "text 2 refused 11 line 26\n", said + to_do(11)),
        )
        self.answers("compare", "refused 19\\n")
        said = (
            "pod1: the two texts differ in more than ozone, or an ozone is missing in one of them "
            "(row 19)\n"
        )
        self.assertEqual(
            self.call("compare", "first", "first", "20"), (1, "refused 19\n", said + to_do(19))
        )

    def test_compare_usage(self):
        self.answers("compare", "0 0\\n")
        usage = "usage: ./pod1 compare FIRST SECOND TOLERANCE"
        for words in ([], ["a"], ["a", "b"], ["a", "b", "1", "c"]):
            self.not_called(usage, "compare", *words)
        for word in ("2.0", "+2", "2ppb", "", "²"):
            self.not_called(
                (
                    f"TOLERANCE is a whole number, and '{word}' is none (tenths of ppb: 20 for 2 "
                    f"ppb). {usage}"
                ),
                "compare",
                "a",
                "b",
                word,
            )
        self.not_called("standard input, -, can be read once", "compare", "-", "-", "1")
        self.write("a", SEASON)
        self.assertEqual(
            self.call("compare", "a", "b", "1"), (2, "", "pod1: b: there is no such file\n")
        )
        self.assertEqual(
            self.call("compare", "a", ".", "1"),
            (2, "", "pod1: .: this is a directory, not a text\n"),
        )
        self.answers("compare", "")
        self.assertEqual(
            self.call("compare", "a", "a", "1"), (2, "", "pod1: a and a: cannot be read\n")
        )

    def test_stretch(self):
        self.write("a", SEASON)
        self.write("b", SEASON)
        self.answers("stretch", "1380 152\\n")
        self.assertEqual(self.call("stretch", "92", "a"), (0, "1380 152\n", ""))
        self.assertEqual(self.words(), ["92", "a"])
        self.assertEqual(
            self.call("stretch", "92", "a", "b"),
            (0, "==> a <==\n1380 152\n\n==> b <==\n1380 152\n", ""),
        )
        self.answers("stretch", "none yet\\n")
        self.assertEqual(self.call("stretch", "92", "a"), (0, "none yet\n", ""))
        self.answers("stretch", "refused 20\\n")
        self.assertEqual(
            self.call("stretch", "0", "a"),
            (1, "refused 20\n", "pod1: 0 days; 1 to 366 are possible (row 20)\n" + to_do(20)),
        )
        self.write("a", SEASON[:21] + SEASON[58:])
        self.answers("stretch", "refused 9 line 2\\n")
        said = "a line 2: day 1 hour 0 was due, the line is day 1 hour 1 (row 9)\n"
        self.assertEqual(
            self.call("stretch", "92", "a"), (1, "refused 9 line 2\n", said + to_do(9))
        )

    def test_stretch_usage(self):
        self.answers("stretch", "none yet\\n")
        usage = "usage: ./pod1 stretch DAYS FILE.."
        self.not_called(usage, "stretch")
        self.not_called(usage, "stretch", "92")
        self.not_called(
            f"DAYS is a whole number, and 'a' is none (days: 92 for three months). {usage}",
            "stretch",
            "a",
            "92",
        )

    def test_place(self):
        self.answers("place", "0104016D006901290208\\n")
        self.assertEqual(
            self.call("place", "4", "365", "520", "500", "0"), (0, "0104016D006901290208\n", "")
        )
        self.assertEqual(self.words(), ["4", "365", "520", "500", "0"])
        refused = (
            ("9 365 520 500 0", 5, f"there is no tree 9; the trees are {refused_texts.TREES}"),
            ("4 2026 520 500 0", 6, "YEAR is the days in the year, 365 or 366, and not 2026"),
            ("4 365 0 500 0", 8, "critical level 0 mmol m⁻² is outside 0.01 to 100"),
            ("3 365 520 500 0", 14, "tree 3 (continental spruce) has no dates by latitude"),
            ("4 365 520 900 0", 14, "latitude 90 ° is outside 35 to 72"),
            ("4 365 520 500 3001", 14, "height 3001 m is outside 0 to 3000"),
            ("4 365 520 720 3000", 7, refusals.ROWS[7].says),
            (f"4 365 520 {5000 * '9'} 0", 14, refusals.ROWS[14].says),
        )
        for words, row, sentence in refused:
            self.answers("place", f"refused {row}\\n")
            self.assertEqual(
                self.call("place", *words.split()),
                (1, f"refused {row}\n", f"pod1: {sentence} (row {row})\n" + to_do(row)),
            )

    def test_place_usage(self):
        self.answers("place", "refused 5\\n")
        usage = "usage: ./pod1 place TREE YEAR LEVEL LATITUDE HEIGHT"
        self.not_called(usage, "place", "4", "365", "520", "475")
        self.not_called(usage, "place", "4", "365", "520", "475", "0", "0")
        latitude = (
            "LATITUDE is a whole number, and '47.5' is none (tenths of a degree north: 475 for "
            "47.5)."
        )
        self.not_called(f"{latitude} {usage}", "place", "4", "365", "520", "47.5", "0")
        sign = (
            "LATITUDE is a whole number, and '-475' is none (tenths of a degree north: 475 for "
            "47.5)."
        )
        self.not_called(f"{sign} {usage}", "place", "4", "365", "520", "-475", "0")
        level = "LEVEL is a whole number, and '5.2' is none (hundredths of mmol m⁻²: 520 for 5.2)."
        self.not_called(f"{level} {usage}", "place", "4", "365", "5.2", "475", "0")
        self.not_called(
            f"TREE is a whole number, and 'beech' is none ({refused_texts.TREES}). {usage}",
            "place",
            "beech",
            "365",
            "520",
            "475",
            "0",
        )

    def test_stand(self):
        self.write("a", SEASON)
        self.answers("stand", "24 0 0 0 0 0 below\\n24 0 0 0 0 0 below\\n")
        header, own = (
            ONE_DAY,
            ",".join(line.decode() for line in (header_line(tree=7), parameters_line())),
        )
        self.assertEqual(
            self.call("stand", "a", header, own),
            (0, "24 0 0 0 0 0 below\n24 0 0 0 0 0 below\n", ""),
        )
        self.assertEqual(self.words(), ["a", header, own])
        self.answers("stand", "refused 24 header 2\\n")
        bad = own.replace(parameters_line().decode(), parameters_line(gmax=0).decode())
        said = "header 2: gmax 0 mmol m⁻² s⁻¹ is outside 1 to 500 (row 24)\n"
        self.assertEqual(
            self.call("stand", "a", header, bad), (1, "refused 24 header 2\n", said + to_do(24))
        )
        self.answers("stand", "refused 22\\n")
        self.assertEqual(
            self.call("stand", "a"),
            (
                1,
                "refused 22\n",
                "pod1: there are 0 headers; one to six are possible (row 22)\n" + to_do(22),
            ),
        )

    def test_stand_refused_line(self):
        self.write("a", text_of([*DAY[:3], refused_texts.hour_line(hour=2, wind=6001), *DAY[4:]]))
        self.answers("stand", "refused 10 line 4\\n")
        said = "a line 4: wind 60.01 m/s is outside 0 to 60 (row 10)\n"
        self.assertEqual(
            self.call("stand", "a", ONE_DAY), (1, "refused 10 line 4\n", said + to_do(10))
        )
        # the first account's row: the soil of birch is water, which this text has not
        self.write("a", text_of(refused_texts.hour_with(soil=1001)))
        self.answers("stand", "refused 10 line 2\\n")
        birch = header_line(tree=2, last=51).decode()
        said = "a line 2: soil water 100.1 % is outside 0 to 100 (row 10)\n"
        self.assertEqual(
            self.call("stand", "a", birch), (1, "refused 10 line 2\n", said + to_do(10))
        )
        self.answers("stand", "refused 23 line 2\\n")
        said = f"a line 2: {refusals.ROWS[23].says} (row 23)\n"
        self.assertEqual(
            self.call("stand", "a", birch, ONE_DAY), (1, "refused 23 line 2\n", said + to_do(23))
        )

    def refused_line(self, lines, row, at, said, word):
        """By a stand-in that refuses this line of the text by this row."""
        self.write("a", text_of(lines))
        self.answers("stand", f"refused {row} line {at}\\n")
        said = f"a line {at}: {said} (row {row})\n"
        self.assertEqual(
            self.call("stand", "a", word), (1, f"refused {row} line {at}\n", said + to_do(row))
        )

    def test_stand_own_frames(self):
        """The text's own frames by its own header, whatever the words say."""
        for lines, row, said in OWN_FRAMES:
            for word in WORDS:
                self.refused_line([*lines, HOUR], row, len(lines), said, word)

    def test_stand_past_own_frames(self):
        """Behind the first other line all are the accounts'; what no line bears out."""
        said = f"{WARM} {BEECH}; day 105 hour 1 was due"
        lines = [header_line(tree=4, last=40), HOUR, warmth_line()]
        self.refused_line(lines, 4, 3, said, WORDS[0])
        self.refused_line([OWN, parameters_line(), HOUR], 4, 2, refusals.ROWS[4].says, WORDS[0])

    def test_stand_usage(self):
        self.answers("stand", "refused 22\\n")
        self.not_called("usage: ./pod1 stand FILE HEADER..", "stand")
        self.assertEqual(
            self.call("stand", "missing", ONE_DAY),
            (2, "", "pod1: missing: there is no such file\n"),
        )

    def test_program_that_ends_with_an_error(self):
        self.write("a", SEASON)
        self.program("printf 13", "exit 1")
        self.assertEqual(self.call("stretch", "92", "a"), (2, "", "pod1: a: cannot be read\n"))

    def test_program_that_is_ended(self):
        self.program("kill -9 $$")
        said = "pod1: pod1 place was ended by signal 9, and its answer is not used\n"
        self.assertEqual(self.call("place", "4", "365", "520", "500", "0"), (2, "", said))


class Builds(Copied):
    def setUp(self):
        super().setUp()
        self.bin = self.folder / "bin"
        tools = (
            "bash", "sh", "env", "readlink", "dirname", "python3", "sleep", "mkdir", "cp", "chmod",
            "cat", "touch", "rm",
        )
        self.bin.mkdir()
        for tool in tools:
            (self.bin / tool).symlink_to(
                shutil.which(tool) if tool != "python3" else sys.executable
            )
        self.write(
            "made", f"#!/bin/sh\ncat >/dev/null\necho '{report(SEASON).splitlines()[0]}'\n".encode()
        )
        self.env = {"PATH": str(self.bin), "HOME": str(self.folder)}
        self.first = "pod1: target/bin/pod1 is proved and built first, 3 crates, once: some"

    def rt(self, *lines):
        """A stand-in for rt, which notes how it was called, and in which crate."""
        self.script(
            self.bin / "rt", "name=${PWD##*/}", f'echo "$@ $name" >>"{self.folder}/calls"', *lines
        )

    def proves(self, crate):
        """A crate's lines."""
        return (
            f"printf 'rt: chose --jobs 2 for {crate}\\nfn {crate}::f: proved\\ncrate {crate}: "
            "modules loaded=0 checked=40\\nlogic=proved functions=1\\n'"
        )

    def links(self):
        return 'mkdir -p out; cp ../../../made out/"$name"; chmod +x out/"$name"'

    def good_rt(self, *between):
        runs = (
            'echo "rt: running out/$name; to give it other input, run that file yourself"; echo '
            '"refused 11 line 1"; exit 1'
        )
        self.rt(self.proves("exact"), *between, self.proves("trees"), self.links(), runs)

    def calls(self):
        path = self.folder / "calls"
        return path.read_text().splitlines() if path.exists() else []

    def called(self, *words):
        return self.call(*words, text=SEASON, env=self.env)

    def test_rt_is_missing(self):
        status, out, err = self.called()
        self.assertEqual((status, out), (2, ""))
        self.assertEqual(
            err,
            "pod1: rt is missing, the Rattle toolchain that proves and compiles the program, and "
            "it is needed: no unproved program is run."
            " Put rt on the PATH and start again.\n",
        )

    def test_first_run_and_next(self):
        self.good_rt()
        status, out, err = self.called()
        self.assertEqual((status, out), (0, report(SEASON).splitlines()[0] + "\n"))
        said = err.splitlines()
        self.assertTrue(said[0].startswith(self.first), said[0])
        self.assertEqual(said[1:], ["pod1: exact is proved", "pod1: trees is proved"])
        self.assertEqual((self.called()[2], self.calls()), ("", ["run pod1"]))

    def test_sources_that_change(self):
        self.good_rt()
        self.called()
        later = time.time() + 1000  # by a clock that is wrong
        os.utime(self.root / "crates" / "other" / "src" / "lib.rt", (later, later))
        self.assertEqual(self.called()[2], "")
        os.utime(self.root / "crates" / "exact" / "src" / "lib.rt", (later, later))
        self.assertEqual(
            self.called()[2].splitlines()[0],
            (
                "pod1: sources have changed since the program was built; what stands on them is "
                "proved again."
            ),
        )
        self.assertEqual(self.called()[2], "")
        (self.root / "crates" / "trees" / "src" / "lib.rt").unlink()
        os.utime(self.root / "crates" / "trees" / "src", (later + 1, later + 1))
        self.called()
        self.assertEqual(self.calls(), 3 * ["run pod1"])

    def test_only_what_is_used(self):
        self.good_rt()
        self.write("a", SEASON)
        self.called("--help")
        self.called("explain", "1")
        self.assertEqual(self.calls(), [])
        self.called("compare", "a", "a", "1")
        self.assertEqual(self.calls(), ["run pod1"])
        self.called("--help")
        self.called("explain", "1")
        self.assertEqual(self.calls(), ["run pod1"])

    def test_a_build_that_fails(self):
        lines = [
            "crate exact: modules loaded=0 checked=40",
            "logic=proved functions=1",
            "fn trees::f: no proof",
            "logic=not-proved",
        ]
        self.rt(
            *(f"echo '{line}'" for line in lines[:2]),
            *(f"echo '{line}' >&2" for line in lines[2:]),
            "exit 1",
        )
        status, out, err = self.called()
        self.assertEqual((status, out), (2, ""))
        self.assertEqual(
            err.splitlines()[1:],
            [
                "pod1: exact is proved",
                *lines,
                "pod1: the program could not be built: rt run in crates/pod1 ended with status 1",
            ],
        )

    def test_another_copy_is_waited_for(self):
        waits = "rt: exact: another copy of the repository is building this library; waiting for it"
        self.good_rt(f"echo '{waits}'")
        self.assertEqual(
            self.called()[2].splitlines()[1:],
            ["pod1: exact is proved", waits, "pod1: trees is proved"],
        )

    def started(self):
        """The command, until rt has said that its first crate is proved."""
        process = subprocess.Popen(
            [self.root / "pod1", self.write("a", SEASON)],
            env=self.env,
            stdout=subprocess.PIPE,
            stderr=subprocess.PIPE,
            text=True,
            preexec_fn=lambda: signal.signal(signal.SIGINT, signal.default_int_handler),
        )
        self.assertTrue(process.stderr.readline().startswith(self.first))
        self.assertEqual(process.stderr.readline(), "pod1: exact is proved\n")
        return process

    def test_an_interrupted_build(self):
        for sign, status in ((signal.SIGINT, 130), (signal.SIGTERM, 143)):
            self.good_rt(f'sleep 300 & echo $! >"{self.folder}/sleeper"; wait')
            process = self.started()
            while (
                not (self.folder / "sleeper").exists()
                or not (self.folder / "sleeper").read_text().strip()
            ):
                time.sleep(0.01)
            process.send_signal(sign)
            out, err = process.communicate(timeout=SECONDS)
            self.assertEqual((process.returncode, out), (status, ""))
            self.assertEqual(
                err,
                "pod1: stopped; what is proved stays proved, and the next run goes on from there\n",
            )
            sleeper = int((self.folder / "sleeper").read_text())
            self.assertRaises(ProcessLookupError, self.await_end, sleeper)
            (self.folder / "sleeper").unlink()
        self.good_rt()
        status, out, err = self.called()
        self.assertEqual((status, out), (0, report(SEASON).splitlines()[0] + "\n"))
        self.assertEqual(len(self.calls()), 3)

    def await_end(self, process):
        """Raises once there is no such process; what is left over but not collected counts as
        ended."""
        for _ in range(500):
            os.kill(process, 0)
            if Path(f"/proc/{process}/stat").read_text().rsplit(")", 1)[1].split()[0] == "Z":
                raise ProcessLookupError
            time.sleep(0.01)

    def test_a_program_that_was_not_finished(self):
        """Linked, and then stopped before rt ran it."""
        self.rt(self.links(), "exit 1")
        self.assertEqual(self.called()[:2], (2, ""))
        self.good_rt()
        self.assertEqual(self.called()[1], report(SEASON).splitlines()[0] + "\n")

    def test_two_at_once(self):
        self.good_rt("sleep 1")
        first = self.started()
        status, out, err = self.called()
        self.assertEqual(
            (status, out, err),
            (
                0,
                report(SEASON).splitlines()[0] + "\n",
                "pod1: another build is under way; waiting for it\n",
            ),
        )
        self.assertEqual(first.communicate(timeout=SECONDS)[0], out)
        self.assertEqual(self.calls(), ["run pod1"])

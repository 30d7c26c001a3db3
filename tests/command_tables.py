"""`./pod1 encode` and `./pod1 chart`; run by tests/command.py. Left out: the writer in C where gcc
or target/libpod1.a is missing, the picture where no python3 has matplotlib."""

import os
import re
import shutil
import subprocess
import sys

import refused_texts
from account_cases import ceiling_line, header_line
from command_base import BEECH, ONE_DAY, SEASON, Case, report, run
from local_trees import parameters_line
from vectors import REPOSITORY

import readings

WEEK = REPOSITORY / "examples" / "week.csv"
WEEK_HEADER = "0106016D00B400BA0208,0604B0"
NAMES = (
    "day,hour,ozone_ppb,ppfd_umol_m2_s,radiation_w_m2,temperature_c,vpd_kpa,wind_m_s,"
    "soil_suction_kpa"
)
ROW = "1,0,50,0,0,-3.5,1.000,3.00,1000"
NO_STEP = "is no whole number of {}, the frame's step; nothing is rounded here"
BAD_CELLS = (  # column, cell, what is said of it
    ("ozone_ppb", "41.23", "41.23 ppb " + NO_STEP.format("0.1 ppb")),
    ("ozone_ppb", "6553.5", "6553.5 ppb does not fit the frame, which holds 0 to 6553.4"),
    ("ozone_ppb", "-1", "-1 ppb does not fit the frame, which holds 0 to 6553.4"),
    ("ozone_ppb", "n/a", "'n/a' is not a number"),
    ("ozone_ppb", "1e3", "'1e3' is not a number"),
    ("ozone_ppb", f"0.1{24 * '0'}001", f"'0.1{24 * '0'}001' is not a number"),
    (
        "ozone_ppb",
        "0.10000000000000000001",
        "0.10000000000000000001 ppb " + NO_STEP.format("0.1 ppb"),
    ),
    ("temperature_c", "", "the cell is blank, and only ozone may be missing"),
    ("temperature_c", '"12,5"', "'12,5' is not a number; write a point, not a comma"),
    ("temperature_c", "12.55", "12.55 °C " + NO_STEP.format("0.1 °C")),
    ("temperature_c", "3276.8", "3276.8 °C does not fit the frame, which holds -3276.8 to 3276.7"),
    ("wind_m_s", "1.005", "1.005 m/s " + NO_STEP.format("0.01 m/s")),
    ("vpd_kpa", "nan", "'nan' is not a number"),
    ("soil_suction_kpa", "65536", "65536 kPa does not fit the frame, which holds 0 to 65535"),
    ("day", "", "the cell is blank"),
    ("day", "1.5", "'1.5' is not a whole number from 0 to 65535"),
    ("hour", "256", "'256' is not a whole number from 0 to 255"),
)


def table(*rows, names=NAMES):
    return "\n".join((names, *rows)).encode() + b"\n"


class Encode(Case):
    def encoded(self, data, header=ONE_DAY):
        return run("encode", header, self.write("readings.csv", data))

    def lines(self, data, header=ONE_DAY):
        status, out, err = self.encoded(data, header)
        self.assertEqual((status, err), (0, ""))
        return out.splitlines()

    def refused(self, message, data, header=ONE_DAY):
        """One bad place, and no text."""
        status, out, err = self.encoded(data, header)
        name = self.folder / "readings.csv"
        last = (
            "pod1: no text was made; rows are counted as a spreadsheet does, the names being row "
            "1\n"
        )
        self.assertEqual((status, out, err), (2, "", f"{name}: {message}\n{last}"))

    def unusable(self, message, data, header=ONE_DAY):
        status, out, err = self.encoded(data, header)
        self.assertEqual(
            (status, out, err), (2, "", f"pod1: {self.folder / 'readings.csv'}: {message}\n")
        )

    def test_week(self):
        status, out, err = run("encode", WEEK_HEADER, WEEK)
        self.assertEqual((status, err, len(out.splitlines())), (0, "", 171))
        self.assertEqual(out.count("FFFF"), 2)
        printed = report(out.encode())
        self.assertTrue(printed.startswith("168 ") and " below\n" in printed, printed)
        page = (REPOSITORY / "docs" / "FORESTERS.md").read_text()
        self.assertTrue(all(line in page for line in printed.splitlines()), printed)

    def test_frame(self):
        lines = [ONE_DAY, "0200010001F400000000FFDD03E8012C03E8", "030001"]
        self.assertEqual(self.lines(table(ROW)), lines)
        self.assertEqual(
            run("encode", ONE_DAY, "-", text=table(ROW)), (0, "\n".join(lines) + "\n", "")
        )

    def test_order_spaces_quotes_mark_and_windows_ends(self):
        plain = self.lines(table(ROW))
        turned = table(
            ",".join(reversed(ROW.split(","))), names=",".join(reversed(NAMES.split(",")))
        )
        for data in (
            turned,
            table(ROW.replace(",", " , "), names=NAMES.replace(",", ", ")),
            table(re.sub(r"([^,]+)", r'"\1"', ROW)),
        ):
            self.assertEqual(self.lines(data), plain)
        for data in (
            b"\xef\xbb\xbf" + table(ROW), table(ROW).replace(b"\n", b"\r\n"), table(ROW)[:-1]
        ):
            self.assertEqual(self.lines(data), plain)

    def test_kinds(self):
        self.assertEqual(
            self.lines(table(ROW + ",850.0", names=NAMES + ",pressure_hpa"))[1],
            "0400010001F400000000FFDD03E8012C03E82134",
        )
        humid = NAMES.replace("vpd_kpa", "humidity_percent")
        self.assertEqual(
            self.lines(table("1,0,50,0,0,-3.5,64.5,3.00,1000", names=humid))[1],
            "0500010001F400000000FFDD0285012C03E8",
        )
        wet = NAMES.replace("soil_suction_kpa", "soil_water_percent")
        self.assertEqual(
            self.lines(
                table("1,0,50,0,0,-3.5,1,3,12.5", names=wet), header_line(tree=1, last=51).decode()
            )[1],
            "0200010001F400000000FFDD03E8012C007D",
        )
        head = [
            line.decode()
            for line in (header_line(tree=7, last=40), parameters_line(), ceiling_line())
        ]
        self.assertEqual(self.lines(table(ROW), ",".join(head))[:3], head)

    def test_hours_are_left_to_the_report(self):
        self.assertEqual(
            [line[2:8] for line in self.lines(table("9,25" + ROW[3:], ROW, ROW))[1:-1]],
            ["000919", "000100", "000100"],
        )
        self.assertEqual(self.lines(table("1,0,600,0,0,99,1,3,1000"))[1][:12], "020001001770")

    def test_bad_cells(self):
        for column, cell, message in BAD_CELLS:
            changed = ROW.split(",")
            changed[NAMES.split(",").index(column)] = cell
            self.refused(f"row 3, column {column}: {message}", table(ROW, ",".join(changed)))

    def test_bad_rows(self):
        self.refused("row 3 is blank: take it out", table(ROW, "", ROW))
        self.refused("row 3 is blank: take it out", table(ROW, ",,,,,,,,"))
        self.refused("row 2 has 8 cells, and there are 9 columns", table(ROW[:-5]))
        self.refused("there are no hours under the names", table())

    def test_many_bad_cells(self):
        err = self.encoded(table(*12 * ["1,0,50,0,0,-3.5,,3.00,"]))[2].splitlines()
        self.assertEqual(len(err), 12)
        self.assertTrue(
            err[0].endswith(
                "row 2, column vpd_kpa: the cell is blank, and only ozone may be missing"
            )
        )
        self.assertTrue(err[10].endswith(": and 14 more"))

    def test_columns(self):
        self.unusable("column ozone_ppb stands twice", table(names=NAMES + ",ozone_ppb"))
        self.unusable("column wind_m_s is missing", table(names=NAMES.replace("wind_m_s,", "")))
        self.unusable(
            "column vpd_kpa or humidity_percent is missing",
            table(names=NAMES.replace("vpd_kpa,", "")),
        )
        self.unusable(
            "columns vpd_kpa and humidity_percent stand both; keep the one that was measured",
            table(names=NAMES + ",humidity_percent"),
        )
        self.unusable(
            (
                "no frame has both humidity and pressure: give vpd_kpa with pressure_hpa, or "
                "leave pressure_hpa out"
            ),
            table(names=NAMES.replace("vpd_kpa", "humidity_percent,pressure_hpa")),
        )
        self.unusable(
            "the soil of tree 6 (evergreen) is read as soil suction, and column "
            "soil_water_percent is not",
            table(names=NAMES + ",soil_water_percent"),
        )
        self.unusable(
            "column soil_water_percent is missing", table(), header_line(tree=2, last=51).decode()
        )
        self.assertIn(
            "unknown column 'ozone'; the columns are day, hour, ozone_ppb,",
            self.encoded(table(names=NAMES.replace("ozone_ppb", "ozone")))[2],
        )

    def test_no_table(self):
        parted = (
            "the columns are parted by semicolons or tabs; export the table with commas between "
            "columns and points in numbers"
        )
        self.unusable(parted, table(ROW, names=NAMES).replace(b",", b";"))
        self.unusable(
            "this is no UTF-8 text; save the table as CSV, UTF-8",
            table(ROW).decode().encode("utf-16"),
        )
        self.unusable("the table is empty; its first row has the names of the columns", b"")
        self.assertIn("this is no CSV table", self.encoded(table('"1' + ROW))[2])
        self.fails("missing: there is no such file", "encode", ONE_DAY, "missing")

    def test_headers(self):
        usage = "usage: ./pod1 encode HEADER READINGS.csv"
        self.misused(usage, "encode", ONE_DAY)
        self.misused(usage, "encode", ONE_DAY, WEEK, WEEK)
        digits = "is no frame: capital hexadecimal digits, as 0104016D006901290208."
        self.misused(f"'beech' in HEADER {digits} {usage}", "encode", "beech", WEEK)
        self.misused(f"'' in HEADER {digits} {usage}", "encode", f"{ONE_DAY},", WEEK)
        self.misused(
            (
                "'030018' in HEADER is an end frame (kind 03); a header is kind 01, and 07, 08 "
                f"and 06 may follow. {usage}"
            ),
            "encode",
            f"{ONE_DAY},030018",
            WEEK,
        )
        for words in ("0604B0", f"0604B0,{ONE_DAY}", f"{ONE_DAY},{ONE_DAY}"):
            self.misused(
                f"HEADER begins with one frame of kind 01, as 0104016D006901290208. {usage}",
                "encode",
                words,
                WEEK,
            )
        self.misused(
            f"HEADER names tree 9; the trees are {refused_texts.TREES}",
            "encode",
            header_line(tree=9).decode(),
            WEEK,
        )

    def test_gap_without_a_ceiling(self):
        status, out, err = run("encode", WEEK_HEADER.split(",")[0], WEEK)
        self.assertEqual((status, len(out.splitlines())), (0, 170))
        self.assertEqual(
            err,
            "pod1: 2 hours have no ozone, and HEADER names no ceiling: the report refuses them "
            "(row 18). Add a ceiling to it, as ,0604B0 for 120 ppb\n",
        )

    def test_against_the_writer(self):
        """Tables of every kind against what the library's writer makes of the same readings."""
        archive, include = REPOSITORY / "target" / "libpod1.a", REPOSITORY / "include"
        if (
            not shutil.which("gcc")
            or not archive.exists()
            or "pod1_write_hour" not in (include / "pod1.h").read_text()
        ):
            self.skipTest("gcc, target/libpod1.a or its writers are missing")
        writer = self.folder / "writer"
        subprocess.run(
            [
                "gcc", "-O1", "-Wall", "-Werror", f"-I{include}", "-o", writer,
                REPOSITORY / "tests" / "writer.c", archive,
            ],
            check=True,
        )
        for kind, names, rows in writer_tables():
            made = self.lines(table(*rows, names=names), f"{ONE_DAY},0604B0")[2:-1]
            given = "\n".join(f"{kind} {row.replace(',', ' ')}" for row in in_steps(kind, rows))
            written = subprocess.run(
                [writer], input=given, capture_output=True, text=True, check=True
            ).stdout.splitlines()
            self.assertEqual((len(made), made), (len(rows), written))


VALUES = {  # in steps of the frame, at both ends and between
    "ozone_ppb": (0, 1, 412, 5000, 65535),
    "ppfd_umol_m2_s": (0, 3000, 1234),
    "radiation_w_m2": (0, 1500, 51),
    "temperature_c": (-500, -1, 0, 1, 600),
    "vpd_kpa": (0, 10000, 1),
    "humidity_percent": (0, 1000, 645),
    "wind_m_s": (0, 6000, 7),
    "soil_suction_kpa": (0, 10000, 999),
    "pressure_hpa": (5000, 11000, 10132),
}
DECIMALS = {reading.column: reading.decimals for reading in readings.ALL}


def cell_of(column, steps):
    return (
        "" if column == "ozone_ppb" and steps == 65535 else readings.plain(steps, DECIMALS[column])
    )


def writer_tables():
    """A table for each kind of hour: its kind, names and rows."""
    humid = NAMES.replace("vpd_kpa", "humidity_percent")
    for kind, names in ((2, NAMES), (4, NAMES + ",pressure_hpa"), (5, humid)):
        columns = names.split(",")[2:]
        rows = [
            f"{n % 366 + 1},{n % 24}," + ",".join(
                cell_of(column, VALUES[column][n % len(VALUES[column])]) for column in columns
            )
            for n in range(60)
        ]
        yield kind, names, rows


def in_steps(kind, rows):
    """The same rows as whole numbers, pressure 0 where there is none."""
    for n, row in enumerate(rows):
        day, hour, *_ = row.split(",")
        moisture = "humidity_percent" if kind == 5 else "vpd_kpa"
        columns = [
            "ozone_ppb",
            "ppfd_umol_m2_s",
            "radiation_w_m2",
            "temperature_c",
            moisture,
            "wind_m_s",
            "soil_suction_kpa",
        ]
        numbers = [VALUES[column][n % len(VALUES[column])] for column in columns]
        pressure = VALUES["pressure_hpa"][n % 3] if kind == 4 else 0
        yield ",".join(map(str, (day, hour, *numbers, pressure)))


# ---- chart


def has_matplotlib():
    return any(
        subprocess.run(
            [python, "-c", "import matplotlib"], capture_output=True, check=False
        ).returncode == 0
        for python in (sys.executable, "/usr/bin/python3")
    )


class Chart(Case):
    def test_picture(self):
        if not has_matplotlib():
            self.skipTest("no python3 has matplotlib (Debian: python3-matplotlib)")
        first, second = (
            self.write("a season.txt", BEECH.read_bytes()),
            self.write("bad.txt", b"0104\n"),
        )
        status, out, err = run("chart", first, second, "missing")
        self.assertEqual((status, out), (2, f"{self.folder / 'a season.svg'}\n"))
        self.assertEqual(
            err.splitlines()[0],
            f"{second} line 1: the line has 4 characters; {refused_texts.LENGTHS}",
        )
        self.assertFalse((self.folder / "bad.svg").exists())
        picture = (self.folder / "a season.svg").read_bytes()
        for words in (
            "Beech, days 105 to 297 (15 April to 24 October)",
            "exceeded: 18.81 mmol",
            "critical level 5.2",
            "9,981",
            "0.38",
            "Oct",
        ):
            self.assertIn(words, picture.decode())
        self.assertEqual(run("chart", first)[0], 0)
        self.assertEqual((self.folder / "a season.svg").read_bytes(), picture)

    def test_matplotlib_is_missing(self):
        self.write("matplotlib.py", b"raise ImportError\n")
        message = (
            "matplotlib is missing, which draws the picture: install it (Debian: apt install "
            "python3-matplotlib)"
        )
        self.fails(message, "chart", BEECH, env={**os.environ, "PYTHONPATH": str(self.folder)})
        self.assertFalse(BEECH.with_suffix(".svg").exists())

    def test_wrong_words(self):
        self.misused("usage: ./pod1 chart FILE..", "chart")
        self.misused(
            "chart writes its picture beside the text: name a file, not standard input",
            "chart",
            "-",
            text=SEASON,
        )
        self.misused("a.svg: the picture would take the place of the text", "chart", "a.svg")
        self.misused("a.txt and a.dat: both pictures would be a.svg", "chart", "a.txt", "a.dat")

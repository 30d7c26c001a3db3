#!/usr/bin/env python3
"""The report program target/bin/pod1, held to the lines that tests/report_cases.py expects of each
text. The command ./pod1 has tests/command.py.

    python3 tests/report_program.py [VECTORS]

VECTORS is the folder of season texts, else ../shared/vectors beside the repository; without it
those texts are left out. The program is built by command/build.py where it is missing or old.
Printed: the number of cases, the peak memory over a leap year, and ok; or the first case that
differs.
"""

import os
import re
import signal
import subprocess
import sys
from itertools import chain
from pathlib import Path

import report_cases
import vectors
from account_cases import ceiling_line, end_line, header_line, hour_line
from local_trees import parameters_line
from lot import Lot
from paper import HOUR_KINDS, MISSING
from season_texts import replace_ozone, text_of
from vectors import REPOSITORY

PROGRAM = REPOSITORY / "target" / "bin" / "pod1"
TIME = Path("/usr/bin/time")
# bytes of a leap year's text, by the kind of its hours
LEAP_YEAR = {2: 325036, 4: 360172, 5: 325036}
LONGEST = 360246  # the same with parameters and a ceiling; no accepted text exceeds it
TAKEN = 364544  # bytes that the program reads; the longest text and 67 more decide any report
MOST_MEMORY = 4096  # KiB
SECONDS = 30  # for a run to end

cases = 0


def same(name, got, expected):
    global cases
    cases += 1
    if got != expected:
        print(f"{name}: got {got!r}, expected {expected!r}")
        sys.exit(1)


# ---- texts


def leap_year(kind, tree=6):
    """The hours from 9 to 14 counted."""
    yield header_line(tree, days=366, last=366)
    for n in range(8784):
        light = 500 if 9 <= n % 24 < 15 else 0
        yield hour_line(1 + n // 24, n % 24, kind, ppfd=light, radiation=light)
    yield end_line(8784)


def leap_years():
    """An evergreen's leap year in each kind."""
    years = {kind: text_of(leap_year(kind)) for kind in HOUR_KINDS}
    assert all(len(year) == LEAP_YEAR[kind] for kind, year in years.items())
    return years


def longest_year():
    """A leap year of tree 7 and kind 04 with a ceiling, ozone missing at noon: the longest text
    that is accepted."""
    header, *lines = leap_year(4, 7)
    at_noon = (replace_ozone(line, MISSING) if line[6:8] == b"0C" else line for line in lines)
    year = text_of([header, parameters_line(f1=200, f4=165), ceiling_line(5000), *at_noon])
    assert len(year) == LONGEST and not report_cases.report(year).startswith(b"refused")
    return year


def odd_texts(day, year):
    """Texts on the edges of what a line is."""
    yield "empty", b""
    yield "line feeds", b"\n\n\n"
    yield "carriage return", b"\r"
    yield "carriage returns before the line feeds", day.replace(b"\n", b"\r\n")
    yield "carriage returns for line feeds", day.replace(b"\n", b"\r")
    yield "one carriage return after the season", day + b"\r\n"
    yield "NUL bytes", bytes(40)
    yield "lines of NUL bytes", b"\n".join(map(bytes, (6, 20, 36, 40, 66)))
    yield "NUL bytes after the season", day + bytes(36)
    yield "NUL bytes for line feeds", day.replace(b"\n", b"\0")
    yield "a digit made NUL", day[:60] + b"\0" + day[61:]
    yield "every byte", bytes(range(256))
    yield "leap year", year
    yield "leap year without its last line feed", year[:-1]
    yield "leap year twice", year + year
    yield "leap year with its ceiling again at its end", year + ceiling_line(5000)
    yield "leap year with its parameters again at its end", year + parameters_line(f1=200, f4=165)
    yield (
        "leap year with ramps a day too long",
        year.replace(parameters_line(f1=200, f4=165), parameters_line(f1=200, f4=166)),
    )


def cut_texts(day):
    """A day stopped at each byte."""
    for n in range(len(day)):
        yield f"day stopped at byte {n}", day[:n]


def long_texts(day, year):
    """Far more than the program takes."""
    line, hour = b"A" * 10_000_000, hour_line() + b"\n"
    yield "10 MB line", line
    yield "10 MB line and line feed", line + b"\n"
    yield "10 MB line after a day", day + line
    yield "10 MB line after a leap year", year + line
    yield "10 MB of line feeds after a leap year", year + b"\n" * 10_000_000
    yield "100,000 lines after a day", day + hour * 100_000
    yield "100,000 lines after a leap year", year + hour * 100_000
    yield "100,000 empty lines", b"\n" * 100_000
    yield "100,000 hours without a header", hour * 100_000
    yield "100,000 equal hours", header_line() + b"\n" + hour * 100_000
    yield "leap year, its last hour followed by 100,000 of another kind", year[:-7] + hour * 100_000


def padded(text, line, size):
    """The text followed by copies of the line, cut to the size."""
    return (text + line * size)[:size]


def border_texts(year):
    """Sizes around what the program takes, and around the longest season."""
    hours = (hour_line(kind=kind) + b"\n" for kind in HOUR_KINDS)
    frames = (
        frame + b"\n"
        for frame in (end_line(8784), ceiling_line(), parameters_line(), header_line())
    )
    lines = (b"\n", b"A\n", b"A", *frames, *hours)
    for size in (TAKEN - 1, TAKEN, TAKEN + 1):
        for line in lines:
            yield f"leap year and {line!r} to {size} bytes", padded(year, line, size)
        yield f"leap year open, to {size} bytes", padded(year[:-7], b"0", size)
        yield f"line feeds to {size} bytes", b"\n" * size
    for extra in (1, 6, 7, 20, 21, 36, 37, 38, 40, 41, 42, 65, 66, 67, 68):
        yield f"leap year and {extra} digits", year + b"0" * extra
        yield f"leap year and a line of {extra} digits", year + b"0" * extra + b"\n"
        yield f"leap year open and {extra} digits", year[:-7] + b"0" * extra


# ---- runs of the program


def run(command, text=None, stdin=subprocess.PIPE):
    """What it printed, its messages, its exit status; ended with all that it started where it takes
    too long."""
    out = subprocess.PIPE
    process = subprocess.Popen(command, stdin=stdin, stdout=out, stderr=out, start_new_session=True)
    try:
        printed, messages = process.communicate(text, timeout=SECONDS)
    except subprocess.TimeoutExpired:
        os.killpg(process.pid, signal.SIGKILL)
        printed, messages = process.communicate()
    return printed, messages, process.returncode


def try_text(name, text):
    same(name, run([PROGRAM], text), (report_cases.report(text), b"", 0))


def try_file(path):
    """A season text as a file, held to its .expect too."""
    text = path.read_bytes()
    report_cases.hold(path.name, text, vectors.answer(path))
    with path.open("rb") as file:
        same(path.name, run([PROGRAM], stdin=file), (report_cases.report(text), b"", 0))
    if text.endswith(b"\n"):
        try_text(f"{path.name} without its last line feed", text[:-1])


def try_fillings():
    """Seasons that lack ozone, and each filled with 0, with the ceiling and by lot."""
    lot = Lot(6)
    for text in report_cases.gap_seasons():
        try_text(f"season {text[:20].decode()} without ozone", text)
        for filling in report_cases.fillings(text, lot):
            report_cases.hold_filling("a season by lot", text, filling)
            try_text(f"season {text[:20].decode()} filled", filling)


def pour(pipe, text, size):
    """The text in pieces of the size, as far as they are read."""
    try:
        for at in range(0, len(text), size):
            os.write(pipe, text[at : at + size])
    except BrokenPipeError:
        pass
    os.close(pipe)


def try_pieces(name, text, size):
    """The text through a pipe of packets: each read gets one piece."""
    end, start = os.pipe2(os.O_DIRECT | os.O_CLOEXEC)
    with subprocess.Popen([PROGRAM], stdin=end, stdout=subprocess.PIPE) as process:
        os.close(end)
        pour(start, text, size)
        same(f"{name} in pieces of {size}", process.stdout.read(), report_cases.report(text))


def try_pieces_of(day, year):
    try_pieces("day", day, 1)
    try_pieces("day without its last line feed", day[:-1], 1)
    try_pieces("day and a line feed", day + b"\n", 1)
    try_pieces("leap year", year, 41)
    try_pieces("leap year without its last line feed", year[:-1], 37)
    try_pieces("leap year", year, 4096)


def try_folder():
    """Nothing is printed where standard input is a directory."""
    folder = os.open(REPOSITORY, os.O_RDONLY)
    same("a directory as standard input", run([PROGRAM], stdin=folder), (b"", b"", 0))
    os.close(folder)


def try_closed():
    """Nothing is printed where standard input is closed."""
    closed = ["sh", "-c", 'exec "$0" <&-', PROGRAM]
    same("standard input closed", run(closed), (b"", b"", 0))


# ---- memory


def try_memory(year):
    """The peak over a leap year. A child of this script would be counted with the script's own
    pages, hence the small program between."""
    if not TIME.exists():
        print(f"peak memory not measured: no {TIME}")
        return
    messages = run([TIME, "-v", PROGRAM], year)[1].decode()
    peak = int(re.search(r"Maximum resident set size \(kbytes\): (\d+)", messages)[1])
    print(f"peak memory {peak} KiB")
    same("peak memory below 4 MiB", peak < MOST_MEMORY, True)


# ---- the whole


def build():
    subprocess.run(
        [sys.executable, REPOSITORY / "command" / "build.py", PROGRAM.name],
        check=True,
        stdout=subprocess.DEVNULL,
    )


def try_vectors(folder):
    if not folder.is_dir():
        print(f"no folder {folder}: its season texts are left out")
        return
    for path in vectors.texts(folder):
        try_file(path)


def main():
    build()
    day, years, year = text_of(report_cases.day(True)), leap_years(), longest_year()
    try_vectors(vectors.folder_of(sys.argv))
    named = [(f"leap year of kind {kind}", text) for kind, text in years.items()]
    for texts in (
        named, odd_texts(day, year), cut_texts(day), long_texts(day, year), border_texts(year)
    ):
        for name, text in texts:
            try_text(name, text)
    for text in report_cases.written_by_hand():
        try_text(repr(text[:60]), text)
    sorts = report_cases.mountain_seasons, report_cases.humid_seasons, report_cases.own_seasons
    for text in chain(map(text_of, report_cases.month_seasons()), *(sort() for sort in sorts)):
        try_text(f"season {text[:20].decode()}", text)
    try_fillings()
    try_pieces_of(day, year)
    try_folder()
    try_closed()
    try_memory(year)
    print(f"{cases} cases")
    print("ok")


if __name__ == "__main__":
    main()

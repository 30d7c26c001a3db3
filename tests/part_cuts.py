#!/usr/bin/env python3
"""A station that is ended by SIGKILL at random moments of a season and started again each time: its
last line is that of a season without a cut.

    python3 tests/part_cuts.py FOLDER SEASON CUTS STATION..

Seasons are run in FOLDER until there were CUTS cuts. Where several stations are named each start
takes the next one, so that each takes up what another stored. Exit status 1 where a line differs,
or where a station ends by itself otherwise than well.
"""

import itertools
import random
import signal
import subprocess
import sys
import time
from pathlib import Path

PER_SEASON = 25  # cuts that a season's time is meant for
COUNT = 4  # bytes behind the account: the lines that it has had


def run(station, state, season, seconds=None):
    """What it printed; None where it was ended after so many seconds."""
    with season.open("rb") as text:
        process = subprocess.Popen(
            [station, state], stdin=text, stdout=subprocess.PIPE, stderr=subprocess.PIPE
        )
    try:
        said, complaint = process.communicate(timeout=seconds)
    except subprocess.TimeoutExpired:
        process.kill()
        said, complaint = process.communicate()
    if process.returncode not in (0, -signal.SIGKILL):
        sys.exit(f"part: {station} ended with status {process.returncode}: {complaint.decode()}")
    return said if process.returncode == 0 else None


def lines_had(state):
    return int.from_bytes(state.read_bytes()[-COUNT:], "big") if state.exists() else 0


def main():
    folder, season, cuts = Path(sys.argv[1]), Path(sys.argv[2]), int(sys.argv[3])
    stations = itertools.cycle(sys.argv[4:])
    state = folder / "whole"
    began = time.monotonic()
    line = run(next(stations), state, season)
    longest = 2 * (time.monotonic() - began) / PER_SEASON
    seasons, places = 0, []
    while len(places) < cuts:
        seasons += 1
        state = folder / f"cut-{seasons}"
        while (said := run(next(stations), state, season, random.uniform(0, longest))) is None:
            places.append(lines_had(state))
        if said != line or run(next(stations), state, season) != line:
            sys.exit(
                f"part: a season with cuts after {places} lines ends with {said}, not with {line}"
            )
    names = " and ".join(dict.fromkeys(Path(s).name for s in sys.argv[4:]))
    print(
        f"part: {names}: {len(places)} cuts at {len(set(places))} places, and each season's line "
        "as without"
    )


if __name__ == "__main__":
    main()

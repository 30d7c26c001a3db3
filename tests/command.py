#!/usr/bin/env python3
"""The command ./pod1 as a person calls it: reports, messages, statuses, encode, chart, the further
calls' words and answers, and the first build.

    python3 tests/command.py [-v] [Encode]

The proved program is target/bin/pod1, which must be built. How the command calls it for compare,
stretch, place and stand, and rt, is tried with stand-ins; the proved program itself in `RealCalls`,
on the stored runs also as Rattle's own compiler builds it, which ./test puts beside it.
"""

import sys
import unittest

from command_base import PROGRAM
from command_calls import RealCalls
from command_programs import Builds, Calls
from command_reports import Options, Refusals, Reports, Tables
from command_tables import Chart, Encode

__all__ = [
    "Builds", "Calls", "Chart", "Encode", "Options", "RealCalls", "Refusals", "Reports", "Tables"
]


def main():
    if not PROGRAM.exists():
        sys.exit(f"{PROGRAM} is not built: python3 command/build.py pod1")
    result = unittest.main(exit=False).result
    for test, why in result.skipped:
        print(f"command: {test._testMethodName} is left out: {why}")
    sys.exit(not result.wasSuccessful())


if __name__ == "__main__":
    main()

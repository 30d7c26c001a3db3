"""./pod1: the words of a command, and where each goes."""

import re
import signal
import sys

import calls
import chart
import encode
import refusals
import report
import speak
import texts
import trees
from speak import ACCEPTED, FAILED, Failure, Usage, put, say

VERSION = "1.0"
LAYOUT = 1  # of an account's bytes (POD1_VERSION in include/pod1.h)

HELP = """\
The ozone dose of a tree's season (POD1) from a text of hourly readings, with a verdict against
the critical level.

  ./pod1 FILE..                          the report of each season text; none or -: standard input
  ./pod1 explain N                       what row N of a refusal means and what to do, 1 to 26
  ./pod1 encode HEADER READINGS.csv      a season text from a table of readings
  ./pod1 chart FILE..                    a picture of each report, beside the text
  ./pod1 compare FIRST SECOND TOLERANCE  two analysers of one mast: the hours whose ozone differs by
                                         more than TOLERANCE, in tenths of ppb
  ./pod1 stretch DAYS FILE..             the highest AOT40 of so many days in a row, and the first
  ./pod1 place TREE YEAR LEVEL LATITUDE HEIGHT
                                         a header by the latitude model: days in the year,
                                         hundredths of mmol m⁻², tenths of a degree, metres
  ./pod1 stand FILE HEADER..             one text's hours for one to six trees
  ./pod1 --help | --version              -- ends the options

A report is one line for the season, and one for each month without hours and verdict:
  HOURS COUNTED LOWER UPPER AOT40 AOT40 VERDICT
  the dose at least and at most, in nmol m⁻²; AOT40 at least and at most, in tenths of ppb h
  exceeded   the dose is above the critical level
  below      it is not
  undecided  it lies too near the level to say, or hours without ozone leave it open
A text that is no season gets "refused N line L"; standard error says why.

HEADER is a header's line and, behind commas, what follows it: 07.. and 08.. for tree 7, for encode
also 06.., the ozone ceiling.
TREE is {trees}.

READINGS.csv names its columns in the first row, in any order:
  day, hour
  ozone_ppb           blank where it is missing
  ppfd_umol_m2_s, radiation_w_m2, temperature_c, wind_m_s
  vpd_kpa             or humidity_percent
  soil_suction_kpa    or soil_water_percent for trees 1 and 2
  pressure_hpa        may be left out; with vpd_kpa only

Exit status: 0 all accepted; 1 some text refused; 2 unreadable, not built or wrong usage; of several
files the worst. 130: stopped by Ctrl-C. 141: the reader of the output has gone.
"""


def help_text():
    *most, last = (f"{number} {name}" for number, name in trees.NAMES.items())
    return HELP.format(trees=f"{', '.join(most)}\n  or {last}")


def explain(words):
    """`./pod1 explain N`"""
    if len(words) != 1 or words[0] not in map(str, refusals.ROWS):
        raise Usage(
            f"explain takes the number of a row, 1 to {max(refusals.ROWS)}: ./pod1 explain 10"
        )
    put(refusals.text_of(int(words[0])))
    return ACCEPTED


COMMANDS = {
    "explain": explain,
    "encode": encode.encode,
    "chart": chart.chart,
    "compare": calls.compare,
    "stretch": calls.stretch,
    "place": calls.place,
    "stand": calls.stand,
}


def hold_option(word):
    """A word that begins with a dash and is no option is not taken for a file; a number below 0 is
    left to its command."""
    if re.match("-[^0-9]", word):
        raise Usage(f"{word} is no option; a file of that name is ./{word}, or stands behind --")


def hold_one_input(words):
    if words.count(texts.STANDARD_INPUT) > 1:
        raise Usage("standard input, -, can be read once")


def parted(words):
    """The words before -- and those behind it."""
    if "--" not in words:
        return words, []
    at = words.index("--")
    return words[:at], words[at + 1 :]


def run(words):
    before, behind = parted(words)
    if "--help" in before or "-h" in before:
        put(help_text())
        return ACCEPTED
    if "--version" in before:
        put(f"pod1 {VERSION}, account layout {LAYOUT}\n")
        return ACCEPTED
    for word in before:
        hold_option(word)
    hold_one_input(before)
    # behind -- a dash is a name as any other
    names = [word if word != texts.STANDARD_INPUT else "./-" for word in behind]
    if before and before[0] in COMMANDS:
        return COMMANDS[before[0]](before[1:] + names)
    return report.report(before + names)


def stop(number, _frame):
    sys.exit(128 + number)


def answered(words):
    """The status, failures among it."""
    try:
        return run(words)
    except Usage as usage:
        speak.fail(usage)
        say("pod1: ./pod1 --help has all of it")
        return FAILED
    except Failure as failure:
        return speak.fail(failure)


def guarded(words):
    """The status; nothing that happens to standard output ends in a traceback."""
    try:
        status = answered(words)
        sys.stdout.flush()
        return status
    except BrokenPipeError:
        speak.silence()
        return speak.GONE
    except KeyboardInterrupt:
        speak.silence()
        return 128 + signal.SIGINT
    except OSError as error:  # a full disk
        speak.silence()
        return speak.fail(
            f"{error.filename or 'standard output'}: cannot be used: {error.strerror}"
        )


def main():
    if 1 in speak.open_streams():
        speak.fail("standard output: it is closed")
        return FAILED
    for number in (signal.SIGTERM, signal.SIGHUP, signal.SIGQUIT):
        if signal.getsignal(number) is not signal.SIG_IGN:  # nohup
            signal.signal(number, stop)
    return guarded(sys.argv[1:])


if __name__ == "__main__":
    sys.exit(main())

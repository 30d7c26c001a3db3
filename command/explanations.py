"""A refused line in words: which value, and what was due. The proved program has said which row
refuses which line; where the line does not bear the row out, nothing is added to the row's own
sentence."""

from math import gcd

import frames
import readings
import trees
from refusals import ROWS

MOST_POWER = 22  # of p and of q
LONG = 1000  # characters: no need to say how many more


# ---- the line by itself: rows 1 to 3


def length_sentence(season, line):
    if len(line) in frames.LENGTHS:
        return None
    *most, last = frames.LENGTHS
    return f"the line {count_of(line)}; a frame has {', '.join(map(str, most))} or {last}"


def count_of(line):
    """The text is read to some length only."""
    if len(line) > LONG:
        return f"has more than {LONG} characters"
    return f"has {len(line)} character{'s' * (len(line) != 1)}" if line else "is blank"


def character(code):
    """As a person can find it."""
    names = {9: "a tab", 13: "a carriage return", 32: "a space", 0: "a NUL byte"}
    if code in names:
        return names[code]
    return f"'{chr(code)}'" if 32 < code < 127 else f"byte {code:02X}"


def digit_sentence(season, line):
    for column, code in enumerate(line, start=1):
        if code not in frames.CAPITALS:
            return f"{character(code)} at column {column} is not a digit 0-9 or A-F"
    return None


def kind_sentence(season, line):
    kinds = frames.kinds_of(len(line))
    digits = line[:2].decode("ascii", "replace")
    if not kinds or digits in (f"{kind:02X}" for kind in kinds):
        return None
    able = " or ".join(frames.named(kind) for kind in kinds)
    return (
        f"the line begins with kind {digits}, and its {len(line)} digits are the length of {able}"
    )


# ---- turn: row 4


def due_text(season):
    if season.header is None:
        return "the header (kind 01)"
    if season.end:
        return "nothing"
    if season.lacks_parameters:
        return frames.named(frames.PARAMETERS)
    if season.due is None:
        return "the end frame (kind 03)"
    return "day %d hour %d" % season.due


def misplaced(season, kind):
    """Why a frame of an open season may not stand here; None where it may."""
    if season.lacks_parameters != (kind == frames.PARAMETERS):
        if kind != frames.PARAMETERS:
            return "comes before the parameters"
        return (
            "comes a second time"
            if season.parameters
            else f"belongs to tree 7, and the header names {trees.named(season.tree)}"
        )
    if kind == frames.HEADER:
        return "comes a second time"
    if kind == frames.WARMTH and season.tree != trees.MEASURED:
        return f"belongs to tree 7, and the header names {trees.named(season.tree)}"
    if (kind == frames.WARMTH and season.warmth) or (kind == frames.CEILING and season.ceiling):
        return "comes a second time"
    if kind == frames.WARMTH and season.ceiling:
        return "comes after the ozone ceiling"
    return (
        "comes after the first hour"
        if kind in (frames.WARMTH, frames.CEILING) and season.hours
        else None
    )


def turn_sentence(season, line):
    frame = frames.frame_of(line)
    if frame is None:
        return None
    if season.end:
        return (
            f"{frames.named(frame.kind)} comes after the end frame of line {season.end}; nothing "
            "may follow it"
        )
    if season.header is None:
        return (
            None
            if frame.kind == frames.HEADER
            else f"{frames.named(frame.kind)} comes first; the header (kind 01) was due"
        )
    why = misplaced(season, frame.kind)
    return why and f"{frames.named(frame.kind)} {why}; {due_text(season)} was due"


# ---- the header: rows 5 to 8


def header_of(line):
    frame = frames.frame_of(line)
    return frame.numbers if frame and frame.kind == frames.HEADER else None


def tree_sentence(season, line):
    header = header_of(line)
    return (
        f"there is no tree {header[0]}; the trees are {trees.LIST}"
        if header and header[0] not in trees.NAMES
        else None
    )


def year_sentence(season, line):
    header = header_of(line)
    return (
        f"the year has {header[1]} days; 365 or 366 are possible"
        if header and header[1] not in (365, 366)
        else None
    )


def period_of(header, ramps):
    """What is wrong with the period of a header, for a tree with these ramps."""
    tree, days, first, last, _ = header
    if first < 1:
        return "the period begins on day 0; the year's first day is 1"
    if last < first:
        return f"the period ends on day {last}, before its first day {first}"
    if last > days:
        return f"the period ends on day {last}, and the year has {days} days"
    if last - first < sum(ramps):
        grown, aged = ramps
        return (
            f"from day {first} to day {last} are {last - first} days; {trees.named(tree)} needs "
            f"{grown} for its leaves to grow and {aged} for them to age"
        )
    return None


def period_sentence(season, line):
    frame = frames.frame_of(line)
    if frame and frame.kind == frames.PARAMETERS and season.header:
        return period_of(season.header, frame.numbers[13:15])
    return (
        frame
        and frame.kind == frames.HEADER
        and period_of(frame.numbers, trees.RAMPS.get(frame.numbers[0], (0, 0)))
    )


def level_sentence(season, line):
    header = header_of(line)
    return header and outside(readings.LEVEL, header[4])


def outside(reading, number):
    """That the number of a field is out of its range; None where it is not."""
    steps = reading.steps(number)
    return (
        None
        if reading.holds(steps)
        else f"{reading.name} {reading.said(steps)} is outside {reading.range}"
    )


# ---- hours: rows 9, 10, 15, 18


def hour_of(line):
    frame = frames.frame_of(line)
    return frame if frame and frame.kind in frames.HOURS else None


def due_sentence(season, line):
    hour = hour_of(line)
    if hour is None or season.header is None:
        return None
    came = f"the line is day {hour.numbers[0]} hour {hour.numbers[1]}"
    if season.due is None:
        return f"all {season.period} hours are given and the end frame was due; {came}"
    return (
        None if hour.numbers[:2] == season.due else f"day %d hour %d was due, {came}" % season.due
    )


def range_sentence(season, line):
    hour = hour_of(line)
    if hour is None or season.header is None:
        return None
    fields = list(zip(readings.of_hour(hour.kind, season.tree), hour.numbers[2:]))
    if hour.numbers[2] == readings.MISSING:
        fields = fields[1:]
    return next(filter(None, (outside(reading, number) for reading, number in fields)), None)


def mixed_sentence(season, line):
    hour = hour_of(line)
    if hour is None or season.kind in (None, hour.kind):
        return None
    return f"{frames.named(hour.kind)} in a season whose first is {frames.named(season.kind)}"


def missing_sentence(season, line):
    hour = hour_of(line)
    if hour is None or hour.numbers[2] != readings.MISSING or season.ceiling:
        return None
    return (
        f"day {hour.numbers[0]} hour {hour.numbers[1]} has no ozone (FFFF), and no ozone ceiling "
        "(kind 06) stands behind the header"
    )


# ---- the end: row 11


def end_sentence(season, line):
    frame = frames.frame_of(line)
    if frame is None or frame.kind != frames.END or season.header is None:
        return None
    said = frame.numbers[0]
    count = (
        f"the end frame says {said} hours, {season.hours} were accepted"
        if said != season.hours
        else ""
    )
    return "; ".join(filter(None, (count, left_text(season)))) or None


def left_text(season):
    """The hours that are still due."""
    left = season.period - season.hours
    if left <= 1:
        return "day %d hour %d is still due" % season.due if left else ""
    return f"day %d hour %d and the {left - 1} after it are still due" % season.due


def stop_sentence(season):
    """Of a text that has no more lines."""
    if season.header is None:
        return "the text is empty"
    if season.end:
        return None
    return (
        f"the text ends after {season.hours} of {season.period} hours, without an end frame; "
        f"{due_text(season)} was due"
    )


# ---- other frames: rows 17, 24, 25


def numbers_of(line, kind):
    frame = frames.frame_of(line)
    return frame.numbers if frame and frame.kind == kind else None


def ceiling_sentence(season, line):
    ceiling = numbers_of(line, frames.CEILING)
    return ceiling and outside(readings.CEILING, ceiling[0])


def rises(fields, low, high):
    """That the second of two parameters is not above the first; None where it is."""
    (lesser, less), (greater, more) = fields[low], fields[high]
    return (
        None
        if less < more
        else f"{greater.name} {greater.said(more)} is not above {lesser.name} {lesser.said(less)}"
    )


def power_of(tmin, topt, tmax):
    p, q = tmax - topt, topt - tmin
    p, q = p // gcd(p, q), q // gcd(p, q)
    return (
        f"(Tmax - Topt)/(Topt - Tmin) is {p}/{q} in lowest terms; neither number may be above "
        f"{MOST_POWER}"
        if max(p, q) > MOST_POWER
        else None
    )


def parameter_sentence(season, line):
    numbers = numbers_of(line, frames.PARAMETERS)
    if numbers is None:
        return None
    fields = [
        (reading, reading.steps(number)) for reading, number in zip(readings.PARAMETERS, numbers)
    ]
    wrong = [outside(reading, number) for reading, number in zip(readings.PARAMETERS, numbers)]
    wrong += [rises(fields, low, low + 1) for low in (3, 4, 6, 8)]
    return next(filter(None, wrong), None) or power_of(*(steps for _, steps in fields[3:6]))


def warmth_sentence(season, line):
    warmth = numbers_of(line, frames.WARMTH)
    if warmth is None:
        return None
    rise, fall, end = warmth
    return outside(readings.END, end) or (
        f"rise {rise} plus fall {fall} is above end {end} °C days" if rise + fall > end else None
    )


# ---- any row

SENTENCES = {
    1: length_sentence,
    2: digit_sentence,
    3: kind_sentence,
    4: turn_sentence,
    5: tree_sentence,
    6: year_sentence,
    7: period_sentence,
    8: level_sentence,
    9: due_sentence,
    10: range_sentence,
    11: end_sentence,
    15: mixed_sentence,
    17: ceiling_sentence,
    18: missing_sentence,
    24: parameter_sentence,
    25: warmth_sentence,
}


def sentence_of(row, season, line):
    """Of a line that the row refuses after what the season has had; None where the line does not
    bear the row out. The line is None at the text's end."""
    if season is None or row not in SENTENCES:
        return None
    if line is None:
        return stop_sentence(season) if row == 11 else None
    return SENTENCES[row](season, line) or None


def with_row(sentence, row):
    plain = ROWS[row].says if row in ROWS else "it is refused"
    return f"{sentence or plain} (row {row})"

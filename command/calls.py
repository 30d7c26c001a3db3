"""The library's other calls, by the proved program target/bin/pod1 with the call's name before its
words: words go in as they stand, the answer comes out as it stands, a refusal in words besides."""

import re

import build
import explanations
import frames
import readings
import report
import texts
import trees
from speak import ACCEPTED, REFUSED, Failure, Usage, put, say

REFUSAL = re.compile(r"(?:text ([12]) )?refused (\d+)(?: (line|header) (\d+))?\n")

USAGE = {
    "compare": "./pod1 compare FIRST SECOND TOLERANCE",
    "stretch": "./pod1 stretch DAYS FILE..",
    "place": "./pod1 place TREE YEAR LEVEL LATITUDE HEIGHT",
    "stand": "./pod1 stand FILE HEADER..",
}
# each number's unit, with an example
UNITS = {
    "TOLERANCE": "tenths of ppb: 20 for 2 ppb",
    "DAYS": "days: 92 for three months",
    "TREE": trees.LIST,
    "YEAR": "the days in the year: 365 or 366",
    "LEVEL": "hundredths of mmol m⁻²: 520 for 5.2",
    "LATITUDE": "tenths of a degree north: 475 for 47.5",
    "HEIGHT": "metres: 350",
}


# ---- words


def hold_count(call, words, least, most=None):
    if len(words) < least or (most is not None and len(words) > most):
        raise Usage(f"usage: {USAGE[call]}")


def hold_number(call, name, word):
    """Digits alone: a sign, a point or a unit is not guessed at."""
    if not (word.isascii() and word.isdigit()):
        raise Usage(
            f"{name} is a whole number, and '{word}' is none ({UNITS[name]}). usage: {USAGE[call]}"
        )


# ---- answers


def ask(call, words, files):
    """What the program answers; a file that cannot be read has none."""
    for name in files:
        texts.hold_readable(name)
    printed = build.answer([call, *words])
    if printed is None:
        raise Failure(f"{' and '.join(map(texts.label, files)) or call}: cannot be read")
    return printed


def tell(row, sentence):
    """Of a refusal that has no line."""
    say(f"pod1: {explanations.with_row(sentence, row)}")


def status_of(row):
    if row is None:
        return ACCEPTED
    report.point_to_explain({row})
    return REFUSED


# ---- compare


def compare(words):
    hold_count("compare", words, 3, 3)
    hold_number("compare", "TOLERANCE", words[2])
    names = words[:2]
    printed = ask("compare", [*map(texts.path_of, names), words[2]], names)
    put(printed)
    found = REFUSAL.fullmatch(printed)
    if not found:
        return ACCEPTED
    row = int(found[2])
    if found[1]:
        tell_line(names[int(found[1]) - 1], row, int(found[4]))
    else:
        tell(row, None)
    return status_of(row)


def tell_line(name, row, at):
    """A line of a text; of one that cannot be read again the row alone."""
    text = texts.read_again(name)
    if text:
        report.explain_text(name, text, row, at)
    else:
        report.explain(name, row, at, None, None)


# ---- stretch


def stretch(words):
    hold_count("stretch", words, 1)
    days, *names = words
    hold_number("stretch", "DAYS", days)
    hold_count("stretch", words, 2)
    build.program(build.PROGRAM)
    return report.each(names, lambda name: stretch_answer(days, name))


def stretch_answer(days, name):
    printed = ask("stretch", [days, texts.path_of(name)], [name])
    found = REFUSAL.fullmatch(printed)
    if not found:
        return printed, None
    row = int(found[2])
    if found[3] == "line":
        return printed, (row, lambda: tell_line(name, row, int(found[4])))
    return printed, (row, lambda: tell(row, f"{days} days; 1 to 366 are possible"))


# ---- place

LONGEST = 9  # digits of a word that a message repeats
PLACE = ("TREE", "YEAR", "LEVEL", "LATITUDE", "HEIGHT")
LATITUDE = readings.Reading("latitude", "", "°", 1, 350, 720)
HEIGHT = readings.Reading("height", "", "m", 0, 0, 3000)


def place(words):
    hold_count("place", words, 5, 5)
    for name, word in zip(PLACE, words):
        hold_number("place", name, word)
    printed = ask("place", words, [])
    put(printed)
    found = REFUSAL.fullmatch(printed)
    if not found:
        return ACCEPTED
    row = int(found[2])
    is_short = all(len(word) <= LONGEST for word in words)
    tell(row, place_sentence(row, *map(int, words)) if is_short else None)
    return status_of(row)


def place_sentence(row, tree, year, level, latitude, height):
    """The word that the row refuses; None where it is not to be seen."""
    if row == 5 and tree not in trees.NAMES:
        return f"there is no tree {tree}; the trees are {trees.LIST}"
    if row == 6 and year not in (365, 366):
        return f"YEAR is the days in the year, 365 or 366, and not {year}"
    if row == 8:
        return explanations.outside(readings.LEVEL, level)
    if row != 14:
        return None
    if tree not in trees.PLACED:
        return f"{trees.named(tree)} has no dates by latitude"
    return explanations.outside(LATITUDE, latitude) or explanations.outside(HEIGHT, height)


# ---- stand

# kinds that open an account: those at the text's start are fed to one of the text's own
OWN = (frames.HEADER, frames.PARAMETERS, frames.WARMTH)


def stand(words):
    hold_count("stand", words, 1)
    name, *headers = words
    printed = ask("stand", [texts.path_of(name), *headers], [name])
    put(printed)
    found = REFUSAL.fullmatch(printed)
    if not found:
        return ACCEPTED
    row, at = int(found[2]), int(found[4] or 0)
    if found[3] == "header":
        tell_header(row, at, headers[at - 1])
    elif found[3] == "line":
        tell_shared(name, row, at, headers)
    else:
        tell(
            row, f"there are {len(headers)} headers; one to six are possible" if row == 22 else None
        )
    return status_of(row)


def lines_in(header):
    return header.encode("utf-8", "surrogateescape").split(b",")


def tell_header(row, at, header):
    """The first of the header's lines that bears the row out."""
    lines = lines_in(header)
    for n, line in enumerate(lines):
        sentence = explanations.sentence_of(row, frames.season_of(lines[:n]), line)
        if sentence:
            break
    say(f"header {at}: {explanations.with_row(sentence, row)}")


def tell_shared(name, row, at, headers):
    """A line of the text: by the text's own account where it is fed to that one, else by the first
    account that bears the row out."""
    text = texts.read_again(name)
    lines = texts.lines_of(text)
    line = report.line_at(lines, at)
    own = line is not None and own_before(lines[:at])
    seasons = [own] if own else [season_under(header, lines[: at - 1]) for header in headers]
    sentences = (explanations.sentence_of(row, season, line) for season in seasons if text)
    report.explain(name, row, at, line, next(filter(None, sentences), None))


def is_own(own, line):
    """A frame that opens an account, or what stands where the text's own awaits its parameters."""
    frame = frames.frame_of(line)
    return (frame is not None and frame.kind in OWN) or bool(own.header and own.lacks_parameters)


def own_before(lines):
    """The text's own account before the last of its lines so far; None where that line is not fed
    to it."""
    for count, line in enumerate(lines):
        own = frames.season_of(lines[:count])
        if own is None or not is_own(own, line):
            return None
    return own


def season_under(header, lines):
    """The account of a header after the text's lines."""
    own = frames.season_of(lines_in(header))
    return own and frames.season_of(lines, own, OWN)

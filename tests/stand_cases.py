#!/usr/bin/env python3
"""The section "stand" of crates/cases, by the book of tests/account_cases.py and the words of
docs/SPECIFICATION.md alone ("Several trees, one reading", "A laboratory's own tree", "Leaf age by
warmth").

    python3 tests/stand_cases.py

writes it (tests/sections.py).

A list is the first accounts of six. Lists of none to six and of more; lists that are unlike in each
of the seven things, at each place; impossible accounts at each place; laboratories' own trees, with
parameters and without, by warmth and by the day, beside each other and beside other trees; every
list of lines that tests/account_cases.py writes by hand; lists and lines drawn by lot; and seasons,
whose accounts are held to accounts that were fed alone, to those of other lists, and to the exact
dose of tests/paper.py. All six accounts are printed after each refusal.
"""

from collections import Counter
from itertools import permutations, product
from typing import NamedTuple

import account_cases as book
import sections
import vectors
from account_cases import CLOSED, FRESH, OPEN, Account
from local_trees import BROKEN, LOCAL, local, parameters_line
from paper import CEILING, HEADER, HOUR_KINDS, MEASURED, NO_PARAMETERS, NUMBERS, PARAMETERS, Age
from paper import Parameters, Warmth, ends, exact_dose, excess, frame_of, gap_allowed, hour_of
from paper import line_of, measure_of, most_hour, sums_before, tree_of
from trial_cases import answer, field_changes, shown

PLACES = 6
OVER = 7, 8, 255  # counts above six

# ---- several trees, one reading


def common(a):
    """What row 23 compares; a fresh account has no soil measure."""
    measure = measure_of(a.tree) if a.tree in NUMBERS else None
    return a.days, a.first, a.last, a.hours, a.phase, a.ceiling, a.kind, measure


def feed_together(accounts, line):
    """The row that refuses the line for a list of one to six, or None; and the accounts that are
    left."""
    if any(map(book.is_impossible, accounts)):
        return (13,), accounts
    if len(set(map(common, accounts))) > 1:
        return (23,), accounts
    fed = [book.feed(account, line) for account in accounts]
    for row, _ in fed:
        if row:
            return row, accounts
    return None, [account for _, account in fed]


# ---- commands and answers


class Sheet(sections.Sheet):
    """The commands so far, what they must print, and the six accounts that they leave."""

    def __init__(self):
        super().__init__()
        self.accounts, self.count = PLACES * [Account()], 0
        self.given = Counter()  # how often the list gave each row
        self.by_count = Counter()  # how often a list of so many accepted

    def fresh(self):
        self.command(b"N")
        self.accounts, self.count = PLACES * [Account()], 0

    def list_first(self, count):
        if count != self.count:
            self.command(b"C", b"%02X" % count)
        self.count = count

    def hold(self, *accounts):
        """The accounts of the first places."""
        for place, account in enumerate(accounts):
            for change in field_changes(self.accounts[place], account):
                self.command(b"H", b"%02X" % place + change)
            self.accounts[place] = account

    def feed_alone(self, place, line):
        row, self.accounts[place] = book.feed(self.accounts[place], line)
        self.command(b"F", b"%02X" % place + line)
        self.answers.append(answer(row, self.accounts[place]))

    def show(self):
        self.command(b"P")
        self.answers.extend(map(shown, self.accounts))

    def feed(self, line):
        """The row that refuses the line, or None."""
        n, row = self.count, (22,)
        if 1 <= n <= PLACES:
            row, self.accounts[:n] = feed_together(self.accounts[:n], line)
        self.command(b"L", line)
        self.answers.append(book.refused(row) if row else "accepted")
        self.given[row] += 1
        if row:
            self.show()
        else:
            self.by_count[n] += 1
        return row

    def expect(self, row, *lines):
        for line in lines:
            given = self.feed(line)
            assert given == row


# ---- lists that are alike

BAD = b"0104", b"03001g", b"010018"  # rows 1 to 3
SUCTION, WATER = (3, 4, 5, 6, 7), (1, 2)  # trees by their soil's measure


def with_tree(a, number):
    """Of tree 7, with parameters."""
    return a._replace(tree=number, parameters=LOCAL if number == MEASURED else NO_PARAMETERS)


def stand(a, trees=SUCTION):
    """Six accounts like this one: other trees of its measure, other levels, other figures."""
    for place in range(PLACES):
        n = min(place, a.counted - a.missing)
        other = with_tree(a, trees[place % len(trees)])._replace(
            level=a.level + place, counted=a.counted - n, lower=a.lower + n
        )
        assert not book.is_impossible(other) and common(other) == common(a)
        yield other


def due_hour(a, **readings):
    """The next hour of an account, counted."""
    return book.hour_due(
        a, a.kind or HOUR_KINDS[0], {"ppfd": 500, "radiation": 400, "soil": 200} | readings
    )


# 60 days, so that every tree's ramps fit
DAYS = Account(OPEN, 6, 365, 100, 159, 520, 900, 2, 100, 40, 5, 1000000, 3000100, 1000, 8500)
DONE = DAYS._replace(hours=1440)  # all given, not closed yet
BEGUN = Account(OPEN, *DAYS.header)


def sizes(sheet):
    """One to six trees of one measure, and accounts past the count; none, and more than six, with
    an impossible account and with lines of rows 1 to 3 too."""
    for trees, kind in product((SUCTION, WATER), HOUR_KINDS):
        six = list(stand(DAYS._replace(tree=trees[0], kind=kind), trees))
        for count in range(1, PLACES + 1):
            sheet.hold(*six)
            sheet.list_first(count)
            sheet.expect(None, due_hour(six[0]))
            assert sheet.accounts[count:] == six[count:]
            sheet.show()
        for count in (0, *OVER):
            sheet.hold(*six)
            sheet.list_first(count)
            sheet.expect((22,), due_hour(six[0]), *BAD)
            sheet.hold(six[0]._replace(counted=101))
            sheet.expect((22,), due_hour(six[0]))


# ---- row 23


def unlike_ones():
    """An account, and one that differs from it in one of the seven things alone; both possible."""
    yield "year", DAYS, DAYS._replace(days=366)
    yield "period", DAYS, DAYS._replace(first=99)
    yield "period", DAYS, DAYS._replace(last=160)
    yield "hour count", DAYS, DAYS._replace(hours=99)
    yield "hour count", DAYS, DAYS._replace(hours=101)
    yield "hour count", DONE, DONE._replace(hours=1439)
    yield "phase", DONE, DONE._replace(phase=CLOSED)
    yield "ceiling", DAYS, DAYS._replace(ceiling=901)
    yield "ceiling", BEGUN, BEGUN._replace(ceiling=1)
    for kind, other in product(HOUR_KINDS, HOUR_KINDS):
        if kind != other:
            yield "hour kind", DAYS._replace(kind=kind), DAYS._replace(kind=other)
    yield "soil measure", DAYS, DAYS._replace(tree=1)
    yield "soil measure", DAYS, DAYS._replace(tree=2)
    yield "soil measure", BEGUN, BEGUN._replace(tree=2)
    yield "soil measure", with_tree(DAYS, MEASURED), DAYS._replace(tree=1)
    yield "soil measure", BEGUN._replace(tree=MEASURED), BEGUN._replace(tree=2)
    # fresh beside open and beside closed: unlike in more than the phase
    yield "fresh", BEGUN, Account()
    yield "fresh", DONE._replace(phase=CLOSED), Account()


def lines_for(a):
    """A line that an account like this one takes, or one for its turn, and lines of rows 1 to 4, 9,
    10 and 11."""
    return (
        due_hour(a), book.end_line(a.hours), *BAD, book.header_line(), due_hour(a, ozone=5001),
        book.hour_line(1, 1), book.end_line(a.hours + 1),
    )


def unlike_at_each_place(sheet):
    things = set()
    for thing, a, other in unlike_ones():
        assert (
            not book.is_impossible(a)
            and not book.is_impossible(other)
            and common(a) != common(other)
        )
        things.add(thing)
        for one, odd in ((a, other), (other, a)):
            six = (
                list(stand(one, SUCTION if one.tree > 2 else WATER)) if one.tree else PLACES * [one]
            )
            for place in range(PLACES):
                sheet.hold(*six)
                sheet.hold(*six[:place], odd)
                sheet.list_first(max(place + 1, 2))
                sheet.expect((23,), *(lines_for(one) if place < 2 else lines_for(one)[:2]))
            # past the count it does not matter
            sheet.list_first(PLACES - 1)
            row = sheet.feed(lines_for(one)[0])
            assert row != (23,)
    assert len(things) == 8


def fresh_ones(sheet):
    """Fresh accounts are alike: a header opens all, and rows 4 to 8 refuse for all."""
    for count in range(1, PLACES + 1):
        sheet.fresh()
        sheet.list_first(count)
        sheet.expect((4,), book.hour_line(), book.end_line(), book.ceiling_line())
        for line in book.BROKEN_HEADERS[count::6]:
            row = sheet.feed(line)
            assert row in ((5,), (6,), (7,), (8,))
        sheet.expect(
            None,
            book.header_line(last=2),
            book.ceiling_line(),
            book.hour_line(ozone=None, radiation=400),
        )
        sheet.show()
        sheet.list_first(PLACES)
        sheet.expect(None if count == PLACES else (23,), book.hour_line(hour=1))


# ---- row 13


def impossible_at_each_place(sheet):
    """Accounts that break a condition of row 13, every seventh of tests/account_cases.py, at one
    place after another, and past the count; then each field."""
    listed = [
        a
        for a in dict.fromkeys((*book.conditions(), *book.single_fields()))
        if book.is_impossible(a)
    ]
    for n, odd in enumerate(listed[::7]):
        place = n % PLACES
        sheet.hold(*stand(DAYS))
        sheet.hold(*sheet.accounts[:place], odd)
        sheet.list_first(place + 1 + n // PLACES % (PLACES - place))
        sheet.expect((13,), (due_hour(DAYS), *BAD, due_hour(DAYS))[n % 5])
        if place:
            sheet.list_first(place)
            sheet.expect(None, due_hour(DAYS))
    # a field of one account, every field at every place
    widest = book.WIDEST._asdict()
    for place, field in product(
        range(PLACES), [field for field in widest if field not in ("phase", "kind")]
    ):
        sheet.hold(*stand(DAYS))
        odd = sheet.accounts[place]._replace(**{field: widest[field]})
        assert book.is_impossible(odd)
        sheet.hold(*sheet.accounts[:place], odd)
        sheet.list_first(PLACES)
        sheet.expect((13,), due_hour(DAYS))


def order_of_rows(sheet):
    """22 before 13, 13 before 23, 23 before 1 to 3 and every later row: each two at once, at every
    two places."""
    broken, other = DAYS._replace(counted=101), DAYS._replace(days=366)
    for at, beside in product(range(PLACES), range(PLACES)):
        six = list(stand(DAYS))
        six[beside] = other
        six[at] = broken
        sheet.hold(*six)
        for count in (0, *OVER[:1]):
            sheet.list_first(count)
            sheet.expect((22,), BAD[0])
        sheet.list_first(PLACES)
        sheet.expect((13,), due_hour(DAYS), BAD[0])
        six[at] = DAYS if at != beside else other
        sheet.hold(*six)
        sheet.expect((23,), due_hour(DAYS), *BAD)
    # alone, two impossible ones of unlike kinds, and an impossible one like none
    sheet.hold(broken, Account(level=1))
    for count in (1, 2):
        sheet.list_first(count)
        sheet.expect((13,), *BAD)


# ---- laboratories' own trees

FED = Account(OPEN, MEASURED, 365, 100, 159, 520, parameters=local(f1=4, f4=5))
LACKING = FED._replace(parameters=NO_PARAMETERS)
BEECH = LACKING._replace(tree=4)
KINDS_OF_OWN = LACKING, FED, BEECH, FED._replace(parameters=local(y=0))
# accepted, row 7, row 24: by an account that lacks them
RIGHT, TOO_LONG, OUT = parameters_line(), parameters_line(f1=30, f4=30), parameters_line(y=11)


def own_lines():
    """A line, the row by which an account that lacks parameters refuses it, and that of any other;
    None where it takes it."""
    for kind in HOUR_KINDS:
        yield due_hour(FED._replace(kind=kind)), (4,), None
    yield due_hour(FED, ozone=None), (4,), (18,)
    yield due_hour(FED, ozone=5001), (4,), (10, 1)
    yield book.hour_line(100, 1), (4,), (9,)
    yield book.end_line(0), (4,), (11,)
    yield book.end_line(1440), (4,), (11,)
    yield book.ceiling_line(), (4,), None
    yield book.ceiling_line(0), (4,), (17,)
    yield book.header_line(7), (4,), (4,)
    yield RIGHT, None, (4,)
    yield TOO_LONG, (7,), (4,)
    yield OUT, (24,), (4,)
    for bad, row in zip(BAD, (1, 2, 3)):
        yield bad, (row,), (row,)


def first_row(accounts, by_lacking, by_others):
    rows = [
        by_lacking if a.tree == MEASURED and a.parameters == NO_PARAMETERS else by_others
        for a in accounts
    ]
    return next((row for row in rows if row), None)


def lacking_beside_fed(sheet):
    """Two or three of them in every order, and six with one that lacks parameters, or that alone
    lacks none, at each place: the first one's row that refuses."""
    twice = (LACKING, LACKING, FED), (FED, FED, LACKING)
    for accounts in (*permutations(KINDS_OF_OWN, 2), *permutations(KINDS_OF_OWN[:3]), *twice):
        for line, *rows in own_lines():
            sheet.hold(*accounts)
            sheet.list_first(len(accounts))
            sheet.expect(first_row(accounts, *rows), line)
    short = [each for each in own_lines() if each[0] in (due_hour(FED), book.ceiling_line(), RIGHT)]
    for (one, odd), place in product(
        ((FED, LACKING), (LACKING, FED), (BEECH, LACKING), (LACKING, BEECH)), range(PLACES)
    ):
        six = [one._replace(level=520 + n) for n in range(PLACES)]
        six[place] = odd
        for line, *rows in short:
            sheet.hold(*six)
            sheet.list_first(PLACES)
            sheet.expect(first_row(six, *rows), line)


def given_together(sheet):
    """Lists whose accounts all lack parameters take them by one line, then a ceiling, hours of a
    kind, not a second time; refused ones change nothing."""
    for count, kind in product((1, 2, 6), HOUR_KINDS):
        sheet.fresh()
        sheet.list_first(count)
        for place in range(count):
            sheet.feed_alone(place, book.header_line(7, 365, 100, 159, 300 + place))
        sheet.expect((24,), OUT, line_of(PARAMETERS, *BROKEN[7 * count % len(BROKEN)]))
        sheet.expect((7,), TOO_LONG)
        sheet.expect((4,), book.ceiling_line(), due_hour(FED))
        sheet.expect(None, RIGHT)
        sheet.expect((4,), RIGHT, TOO_LONG, OUT)
        bright = book.hour_line(100, 0, kind, ozone=None, ppfd=800, radiation=800, soil=200)
        sheet.expect(None, book.ceiling_line(), bright)
        sheet.expect((4,), RIGHT, book.ceiling_line())
        sheet.show()
    # one header for all, parameters for all; then each its own, and any trees of suction beside
    # them
    sheet.fresh()
    sheet.list_first(PLACES)
    sheet.expect(None, book.header_line(7, 365, 100, 159), RIGHT, due_hour(FED))
    sheet.show()
    sheet.fresh()
    sheet.list_first(PLACES)
    for place, tree in enumerate((7, 3, 7, 4, 5, 6)):
        sheet.feed_alone(place, book.header_line(tree, 365, 100, 159, 400 + place))
    for place in (0, 2):
        sheet.expect((4,), due_hour(FED), book.ceiling_line(), RIGHT)
        sheet.feed_alone(place, parameters_line(gmax=100 + 100 * place, y=place))
    sheet.expect((4,), RIGHT)
    bright = book.hour_line(100, 1, ozone=None, ppfd=800, radiation=800, soil=200)
    sheet.expect(None, book.ceiling_line(), due_hour(FED), bright)
    sheet.show()


def impossible_own(sheet):
    """Row 13 by parameters: such that row 24 or, with the period, row 7 refuses, another tree's,
    none and yet a ceiling; at each place, and before rows 23 and 4."""
    begun = [FED._replace(parameters=parameters) for parameters in BROKEN[::9]]
    odd_ones = (
        *begun,
        FED._replace(parameters=local(f1=30, f4=30)),
        FED._replace(parameters=local(f1=0, f4=60)),
        BEECH._replace(parameters=LOCAL),
        BEECH._replace(parameters=Parameters(y=1)),
        LACKING._replace(ceiling=900),
        LACKING._replace(kind=2),
        LACKING._replace(hours=1, kind=2),
    )
    for n, odd in enumerate(odd_ones):
        assert book.is_impossible(odd)
        place = n % PLACES
        six = [KINDS_OF_OWN[m % 4] for m in range(PLACES)]
        six[place] = odd
        sheet.hold(*six)
        sheet.list_first(max(place + 1, 2))
        sheet.expect((13,), due_hour(FED), RIGHT)
    # the limits by the tree: what tree 7 may have and tree 6 may not, and one more
    counted, missing = 40, 5
    for tree, limit_of in product((6, MEASURED), (6, MEASURED)):
        most, gap = most_hour(limit_of) * counted, gap_allowed(limit_of, counted, missing)
        one = with_tree(DAYS, tree)
        low = most - gap
        for lower, upper in ((low, most), (low, most + 1), (low - 1, most), (0, gap), (0, gap + 1)):
            odd = one._replace(lower=lower, upper=upper)
            for accounts in ((DAYS, odd), (odd, with_tree(DAYS, MEASURED))):
                sheet.hold(*accounts)
                sheet.list_first(2)
                wide = upper - lower > gap_allowed(tree, counted, missing)
                over = wide or upper > most_hour(tree) * counted
                sheet.expect((13,) if over else None, due_hour(DAYS))


# ---- leaf age by warmth

WARM = FED._replace(warmth=Warmth(10, 20, 40))


def warmth_beside(sheet):
    """Lists take warmth by one line where each account may; an account by warmth and one by the day
    take the same hours; the first one's row that refuses."""
    kinds = FED, WARM, LACKING, BEECH
    for accounts in (
        *permutations(kinds, 2),
        *permutations(kinds[:3]),
        (FED, FED),
        (WARM, WARM),
        *((*place * (FED,), BEECH) for place in range(2, PLACES)),
    ):
        for line, by_fed in (
            (book.warmth_line(), None),
            (book.warmth_line(2, 2, 3), (25,)),
            (book.warmth_line(0, 0, 5001), (25,)),
        ):
            sheet.hold(*accounts)
            sheet.list_first(len(accounts))
            sheet.expect(
                next(filter(None, (by_fed if a == FED else (4,) for a in accounts)), None), line
            )
    for count, kind in product((1, 2, 6), HOUR_KINDS):
        sheet.hold(*((FED, WARM, FED, WARM, BEECH, WARM)[:count]))
        sheet.list_first(count)
        for n in range(26):
            sheet.expect(
                None,
                book.hour_line(
                    100 + n // 24,
                    n % 24,
                    kind,
                    temperature=20 * n - 100,
                    ppfd=800,
                    radiation=800,
                    soil=200,
                ),
            )
        sheet.expect((4,), book.warmth_line(), book.ceiling_line())
        sheet.show()


def impossible_warm(sheet):
    """Row 13 by warmth: such that row 25 refuses, without parameters, sums that no hours give; at
    each place, and before rows 23 and 4."""
    odd_ones = [WARM._replace(warmth=Warmth(*three)) for three in book.BROKEN_WARMTHS if any(three)]
    odd_ones += [a._replace(warmth=WARM.warmth) for a in (LACKING, BEECH)] + [
        FED._replace(sum=1), FED._replace(total=-1), WARM._replace(sum=1), WARM._replace(total=1)
    ]
    for n, odd in enumerate(odd_ones):
        assert book.is_impossible(odd)
        place = n % PLACES
        six = [(FED, WARM, BEECH)[m % 3] for m in range(PLACES)]
        six[place] = odd
        sheet.hold(*six)
        sheet.list_first(max(place + 1, 2))
        sheet.expect((13,), due_hour(FED), book.warmth_line())


# ---- lines written by hand, and by lot


def open_each(sheet, line):
    """The header to each listed account alone, its own level in it and, where both trees without
    ramps fit, one or the other."""
    tree, days, first, last, level = frame_of(line)[2]
    for place in range(sheet.count):
        own = (6, 3)[place % 2] if tree in (3, 6) else tree
        sheet.feed_alone(place, book.header_line(own, days, first, last, min(level + place, 10000)))


def feed_list(sheet, line):
    """In place of a header that fresh accounts take each gets one alone; every other line is fed to
    the list."""
    row, kind, numbers = frame_of(line)
    if row is None and kind == HEADER and not book.header_row(*numbers) and sheet.accounts[
        0
    ].phase == FRESH:
        open_each(sheet, line)
    else:
        sheet.feed(line)


def by_hand(sheet):
    for n, lines in enumerate(book.by_hand()):
        sheet.fresh()
        sheet.list_first(1 + n % PLACES)
        for line in lines:
            feed_list(sheet, line)
        sheet.show()


def likes_by_lot(lot, a):
    """Six accounts like this one, where row 13 lets them."""
    for _ in range(PLACES):
        trees = WATER if a.tree in WATER else SUCTION
        least, lower = a.least // (1 + lot.below(3)), a.lower - min(a.lower, lot.below(3))
        other = with_tree(a, lot.of(trees))._replace(
            level=1 + lot.below(10000), least=least, lower=lower
        )
        yield a if book.is_impossible(other) else other


def lists_by_lot(sheet, lot):
    """Lists of accounts of any fields, one account in some of them another one by a field."""
    for _ in range(90):
        a = book.account_by_lot(lot)
        six = list(likes_by_lot(lot, a))
        if lot.below(4) == 0:
            place = lot.below(PLACES)
            six[place] = book.with_another_field(lot, six[place])
        sheet.hold(*six)
        sheet.list_first(lot.of((0, 1, 2, 3, 3, 4, 5, 6, 6, *OVER)))
        for _ in range(3):
            sheet.feed(book.some_line(lot, sheet.accounts[0]))
        sheet.show()


def lines_by_lot(sheet, lot):
    """From fresh accounts on, each opened alone or all by one header."""
    for _ in range(20):
        sheet.fresh()
        sheet.list_first(1 + lot.below(PLACES))
        for _ in range(60):
            line = book.some_line(lot, sheet.accounts[0])
            if lot.below(3):
                sheet.feed(line)
            else:
                feed_list(sheet, line)
        sheet.show()


# ---- seasons


def weather(lot, day, hour, kind, is_water, has_gaps):
    """An hour of a summer: light by day, sometimes no ozone."""
    light = max(0, 1500 - 33 * (hour - 12) ** 2)
    return book.hour_line(
        day,
        hour,
        kind,
        ozone=None if has_gaps and lot.below(12) == 0 else 250 + lot.below(700) + light // 4,
        ppfd=light,
        radiation=light // 2,
        temperature=90 + light // 10 + lot.below(100),
        vpd=lot.below(800) + light,
        humidity=900 - light // 3 - lot.below(100),
        wind=30 + lot.below(400),
        soil=lot.below(300 if is_water else 1400),
        pressure=8200 + lot.below(300),
    )


def season_of(lot, kind, is_water, first, last, ceiling):
    """A season's lines after its header."""
    if ceiling:
        yield book.ceiling_line(ceiling)
    for day, hour in product(range(first, last + 1), range(24)):
        yield weather(lot, day, hour, kind, is_water, ceiling > 0)
    yield book.end_line(24 * (last - first + 1))


def figures_of(account, lines):
    """Figures of an account's season by the exact dose of tests/paper.py, each missing ozone read
    as 0 and as the ceiling."""
    tree = tree_of(account.tree, account.parameters)
    frames = [frame_of(line)[1:] for line in lines]
    ceiling = dict(frames).get(CEILING, (0,))[0]
    hours = [hour_of(kind, numbers) for kind, numbers in frames if kind in HOUR_KINDS]
    counted, missing, sums = 0, 0, [0, 0, 0, 0]
    for hour, tenths in zip(hours, sums_before(hours)):
        if hour.is_counted:
            counted, missing = counted + 1, missing + (hour.ozone is None)
            lowest, highest = ends(hour, ceiling)
            low, high = (
                exact_dose(tree, account.first, account.last, end, Age(account.warmth, tenths))
                for end in (lowest, highest)
            )
            added = (low[0], high[1], excess(lowest), excess(highest))
            sums = [old + new for old, new in zip(sums, added)]
    return vectors.Figures(counted, missing, *sums)


class Warmed(NamedTuple):
    """A laboratory's tree whose leaf age goes by warmth."""

    parameters: Parameters
    warmth: Warmth


def open_alone(sheet, place, tree, first, last):
    """By a header and, where the tree is given by parameters, by these, and by its warmth."""
    if isinstance(tree, Warmed):
        open_alone(sheet, place, tree.parameters, first, last)
        sheet.feed_alone(place, book.warmth_line(*tree.warmth))
        return
    if not isinstance(tree, Parameters):
        sheet.feed_alone(place, book.header_line(tree, 365, first, last, 100 + tree))
        return
    sheet.feed_alone(place, book.header_line(MEASURED, 365, first, last, 100 + tree.y))
    sheet.feed_alone(place, line_of(PARAMETERS, *tree))


def season(sheet, lines, first, last, trees, alone=(), stray=()):
    """A list of these trees fed a season's lines, some strays before each day, the trees of `alone`
    beside it one by one; the accounts at its end."""
    sheet.fresh()
    sheet.list_first(len(trees))
    for place, tree in enumerate((*trees, *alone)):
        open_alone(sheet, place, tree, first, last)
    for n, line in enumerate(lines):
        if n % 24 == 0:
            rows = [sheet.feed(other) for other in stray]
            assert all(rows)
        sheet.expect(None, line)
        for place in range(len(trees), len(trees) + len(alone)):
            sheet.feed_alone(place, line)
    sheet.show()
    return sheet.accounts[: len(trees)], sheet.accounts[len(trees) : len(trees) + len(alone)]


# laboratories' trees: much dose and none of the first nmol taken off, ramps and the greatest Y, VPD
# and suction that fall within a step
WIDE = local(
    gmax=500, fmin=50, lighta=200, tmin=-20, topt=2, tmax=24, vpdmax=3000, vpdmin=9000, soilmax=900,
    soilmin=5000, leaf=1, y=0,
)
RAMPED = local(f1=12, f4=25, a=30, e=0, y=2)
STEEP = local(
    vpdmax=1200, vpdmin=1201, soilmax=700, soilmin=701, tmin=-20, topt=-17, tmax=49, leaf=200
)
# by warmth: through both ramps and past the end in a long season, and in a short one
LONG, BRIEF = Warmed(RAMPED, Warmth(150, 200, 600)), Warmed(WIDE, Warmth(20, 30, 60))


def hold_to_exact(accounts, lines):
    """Each account against the exact dose of its tree, no further from it than the tree's own
    limits."""
    for a in set(accounts):
        figures = figures_of(a, lines)
        assert (a.counted, a.missing, a.least, a.most) == (
            figures.counted, figures.missing, figures.least, figures.most
        ) and a.counted > 0
        assert (
            vectors.encloses(a.tree, a.lower, a.upper, figures)
            and a.upper <= most_hour(a.tree) * a.counted
            and a.lower > 0
        )


def seasons(sheet, lot):
    """Whole seasons: three trees against the same three fed alone, account by account, and against
    the exact dose; then up to six with other neighbours."""
    stray = b"0104", book.hour_line(1, 23), book.end_line(7)
    for kind, trees, others, first, last, ceiling in (
        (2, (3, 4, RAMPED), (RAMPED, 5, 4, 3, WIDE, 6), 180, 220, 0),
        (2, (4, LONG, RAMPED), (LONG, 5, RAMPED, 4), 180, 220, 0),
        (2, (6, WIDE, 6), (WIDE, 6), 190, 193, 1200),
        (5, (WIDE, BRIEF, 6), (BRIEF, 6, 3, WIDE), 190, 195, 1200),
        (4, (WIDE, 3, STEEP), (3, STEEP, 6, WIDE, 3), 200, 204, 900),
        (5, (3, 6, STEEP), (6, STEEP, 3, WIDE), 150, 154, 1200),
        (5, (1, 2, 1), (2, 1), 170, 220, 1000),
    ):
        is_water = trees[0] in WATER
        lines = list(season_of(lot, kind, is_water, first, last, ceiling))
        beside = trees[:1] if is_water else trees  # fewer beside the longest season
        together, alone = season(
            sheet, lines, first, last, trees, beside, stray if last - first < 10 else stray[:1]
        )
        assert together[: len(alone)] == alone and all(a.phase == CLOSED for a in together)
        elsewhere, _ = season(sheet, lines, first, last, others)
        assert set(together) <= set(elsewhere)
        hold_to_exact((*together, *elsewhere), lines)


# ---- the whole


def filled():
    sheet = Sheet()
    lot = book.Lot(22)
    for sort in (
        sizes, unlike_at_each_place, fresh_ones, impossible_at_each_place, order_of_rows,
        lacking_beside_fed, given_together, impossible_own,
    ):
        sort(sheet)
    for sort in (warmth_beside, impossible_warm, by_hand):
        sort(sheet)
    for sort in (lists_by_lot, lines_by_lot, seasons):
        sort(sheet, lot)
    assert (
        set(sheet.given) == book.ROWS | {(22,), (23,)}
        and set(sheet.by_count) == set(range(1, PLACES + 1))
    )
    return sheet


def section():
    return filled().section()


if __name__ == "__main__":
    sections.write("stand", section())

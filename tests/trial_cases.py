#!/usr/bin/env python3
"""The section "trial" of crates/cases, by the book of tests/account_cases.py and the words of
docs/SPECIFICATION.md, "Trials", alone.

    python3 tests/trial_cases.py

writes it (tests/sections.py).

Tried, taken, and taken a second time: every list of lines that tests/account_cases.py writes by
hand, and lists drawn by lot. Forged: trials whose tried account, whose carried account or whose
holder's account differs in one field, trials that carry each refusal, an impossible account,
another reading; each field set to numbers on either side of what it was.
"""

from typing import NamedTuple, Optional

import account_cases as book
import sections
from account_cases import Account
from local_trees import parameters_line
from paper import Parameters

# of an account's fields; a phase and a kind have two here
DIGITS = tuple(max(2, digits) for digits in book.DIGITS)
ROWS = tuple((n,) for n in range(1, 26) if n != 10) + tuple((10, field) for field in range(1, 9))


class Trial(NamedTuple):
    tried: Account
    row: Optional[tuple]  # the row that refuses the line; None where it is accepted
    next: Account  # the account that would follow
    reading: str


def reading(account):
    """Every figure, hours to AOT40's upper, and the verdict."""
    if book.is_impossible(account):
        return book.refused((13,))
    return " ".join(str(n) for n in account.sums) + " " + book.verdict(account)


def trial(account, line):
    row, following = book.feed(account, line)
    return Trial(account, row, following, reading(following))


def take(account, held):
    """The row that refuses it, or None; and the account that is left."""
    if book.is_impossible(account):
        return (13,), account
    if account != held.tried:
        return (16,), account
    if held.row:
        return held.row, account
    if book.is_impossible(held.next):
        return (13,), account
    return None, held.next


# ---- commands and answers


def shown(account):
    """Every field; a mark where all parameters are 0, and one where warmth and the temperature sums
    are."""
    parameters = account.parameters if account.parameters.is_fed else "-"
    warmth = (*account.warmth, account.sum, account.total) if account.is_warm else "-"
    return " ".join(str(n) for n in (*account[:15], *parameters, *warmth))


def answer(row, account):
    return (book.refused(row) if row else "accepted") + ": " + shown(account)


def field_changes(old, new):
    """Each field in which the new account is not the old one, and its number."""
    for at, (was, is_now, digits) in enumerate(zip(old.numbers, new.numbers, DIGITS)):
        if was != is_now:
            yield b"%02X%0*X" % (at, digits, is_now % 16**digits)


class Sheet(sections.Sheet):
    """The commands so far, what they must print, and the account and the trial that they leave."""

    def __init__(self):
        super().__init__()
        self.account, self.trial = Account(), trial(Account(), b"")
        self.tried, self.taken = set(), set()  # the rows that trials and takings gave

    def fields(self, letter, old, new):
        """A command for each field in which the new account is not the old one."""
        for change in field_changes(old, new):
            self.command(letter, change)

    def hold(self, account):
        self.fields(b"H", self.account, account)
        self.account = account

    def feed(self, line):
        row, self.account = book.feed(self.account, line)
        self.command(b"F", line)
        self.answers.append(answer(row, self.account))

    def attempt(self, line):
        self.trial = held = trial(self.account, line)
        self.command(b"T", line)
        self.tried.add(held.row)
        self.answers.append(
            shown(held.tried) + ": " + answer(held.row, held.next) + ": " + held.reading
        )

    def take(self):
        row, self.account = take(self.account, self.trial)
        self.command(b"K")
        self.taken.add(row)
        self.answers.append(answer(row, self.account))
        return row

    # a part of the trial that nothing made

    def forge_tried(self, account):
        self.fields(b"P", self.trial.tried, account)
        self.trial = self.trial._replace(tried=account)

    def forge_acceptance(self, account):
        self.command(b"Q", b"FF")  # an acceptance, no field anew
        self.fields(b"Q", self.trial.next, account)
        self.trial = self.trial._replace(row=None, next=account)

    def forge_refusal(self, row):
        number, field = (*row, 0)[:2]
        self.command(b"R", b"%02X%02X" % (number, field))
        self.trial = self.trial._replace(row=row)

    def forge_reading(self):
        self.command(b"V")
        self.trial = self.trial._replace(reading=book.refused((13,)))


# ---- trials that were made


def try_and_take(sheet, line):
    """What taking gives is what feeding gives; taken twice it is row 16 unless nothing changed."""
    before = sheet.account
    sheet.attempt(line)
    made = sheet.trial
    assert sheet.account == before
    row = sheet.take()
    assert (
        (row, sheet.account) == book.feed(before, line) and reading(sheet.account) == made.reading
    )
    again = sheet.take()
    if not book.is_impossible(before):
        assert again == ((16,) if sheet.account != before else made.row)


def made_by_hand(sheet):
    for lines in book.by_hand():
        sheet.hold(Account())
        for line in lines:
            try_and_take(sheet, line)


def made_by_lot(sheet, lot):
    """Some lines are fed after the trial, which is then another account's unless they are
    refused."""
    for _ in range(8):
        sheet.hold(Account())
        for _ in range(60):
            line = book.some_line(lot, sheet.account)
            if lot.below(4):
                try_and_take(sheet, line)
                continue
            sheet.attempt(line)
            sheet.feed(book.some_line(lot, sheet.account))
            sheet.take()


# ---- trials that nothing made

def after(*lines):
    """The account of a season so far."""
    account = Account()
    for line in lines:
        row, account = book.feed(account, line)
        assert row is None
    return account


def starts():
    """An account and the line that it takes next: fresh, opened, with a ceiling, after 13 hours of
    each kind, some without ozone, all given, of a long season; a closed one, which takes none; tree
    7's, before its parameters and after them, before its warmth and after it, through the hour that
    ends a day."""
    header, ceiling, hours, end = (
        book.header_line(), book.ceiling_line(), list(book.day_lines()), book.end_line(),
    )
    yield Account(), header
    yield after(header), hours[0]
    yield after(header), ceiling
    yield after(header, ceiling), hours[0]
    for kind in book.HOUR_KINDS:
        day = list(book.day_lines(kind=kind))
        yield after(header, *day[:13]), day[13]
    day = list(book.day_lines(is_missing=book.GAPS["some"]))
    yield after(header, ceiling, *day[:13]), day[13]
    yield after(header, ceiling, *day[:12]), day[12]
    yield after(header, *hours), end
    yield after(header, *hours, end), end
    yield book.YEAR, book.hour_line(day=209, hour=8, ppfd=500, radiation=400)
    header, parameters = book.header_line(tree=7), parameters_line()
    yield after(header), parameters
    yield after(header, parameters), ceiling
    yield after(header, parameters, ceiling, *day[:12]), day[12]
    warmth = book.warmth_line(10, 20, 40)
    yield after(header, parameters), warmth
    yield after(header, parameters, warmth), ceiling
    yield after(header, parameters, warmth, *hours[:23]), hours[23]
    two = book.header_line(tree=7, last=2)
    yield (
        after(two, parameters, warmth, ceiling, *day, book.hour_line(2, temperature=-40)),
        book.hour_line(2, 1, ppfd=500, radiation=400),
    )


def changed_to(account, field, was, most):
    """What to set a field to: a step up or down, an end of its width, each other kind; of
    parameters that are not fed the first and the last to 1, and so of warmth and the temperature
    sums."""
    if field == "kind":
        return book.NO_KIND, *book.HOUR_KINDS
    if field in Parameters._fields and not account.parameters.is_fed:
        return (1,) if field in ("gmax", "y") else ()
    if field in book.WARM_FIELDS and not account.is_warm:
        return 1, -1
    return was + 1, was - 1, 0, most


def changes(account):
    """The account with one field anew, each field in turn."""
    for field, was, most in zip(book.FIELDS, account.numbers, book.WIDEST.numbers):
        for n in dict.fromkeys(changed_to(account, field, was, most)):
            if (n >= 0 or field == "total") and n <= most and n != was:
                yield book.with_field(account, field, n)


def forged_fields(sheet, account, line):
    """The account tried, the account handed in, and the account carried, each field in turn."""
    for other in changes(account):
        sheet.hold(account)
        sheet.attempt(line)
        sheet.forge_tried(other)
        sheet.take()
        sheet.hold(other)
        sheet.take()  # the forged trial taken with the account that it names
        sheet.attempt(line)
        sheet.hold(account)
        sheet.take()
    for other in changes(trial(account, line).next):
        sheet.hold(account)
        sheet.attempt(line)
        sheet.forge_acceptance(other)
        sheet.take()
        sheet.take()


def forged_answers(sheet, account, line):
    """Each refusal, and an acceptance where the line is refused; the account unchanged, and with
    the reading spoilt."""
    for row in ROWS:
        sheet.hold(account)
        sheet.attempt(line)
        sheet.forge_refusal(row)
        sheet.take()
        sheet.hold(account._replace(level=account.level ^ 1))
        sheet.take()
    sheet.hold(account)
    sheet.attempt(b"0104")
    sheet.forge_acceptance(account)
    sheet.take()
    sheet.take()
    sheet.attempt(line)
    sheet.forge_reading()
    sheet.take()


def forged_by_lot(sheet, lot):
    """Impossible accounts handed in, tried and carried, each with each."""
    for _ in range(150):
        account, carried = book.account_by_lot(lot), book.account_by_lot(lot)
        sheet.hold(account)
        sheet.attempt(book.some_line(lot, account))
        if lot.below(2):
            sheet.forge_acceptance(carried)
        if lot.below(3) == 0:
            sheet.forge_tried(lot.of((carried, sheet.trial.next)))
        if lot.below(3) == 0:
            sheet.hold(lot.of((carried, sheet.trial.tried, sheet.trial.next)))
        sheet.take()
        sheet.take()


# ---- the whole


def filled():
    sheet = Sheet()
    made_by_hand(sheet)
    lot = book.Lot(16)
    made_by_lot(sheet, lot)
    for account, line in starts():
        forged_fields(sheet, account, line)
        forged_answers(sheet, account, line)
    forged_by_lot(sheet, lot)
    assert sheet.tried == book.ROWS and sheet.taken == {None, *ROWS}
    return sheet


def section():
    return filled().section()


if __name__ == "__main__":
    sections.write("trial", section())

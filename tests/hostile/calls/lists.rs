//! Lists of calls by chance: seasons fed line by line, accounts from hostile bytes, lists of
//! accounts, season texts and writers.

use crate::account::{lines, Header};
use crate::accounts::line_of_bytes;
use crate::bench::{Bench, Held};
use crate::damage::*;
use crate::feeding::{FOLLOWING, TRIAL, TRIED};
use crate::frames::is_hour;
use crate::layout::*;
use crate::moves::*;
use crate::possible::is_impossible;
use crate::rng::Rng;
use crate::season::*;
use crate::states::*;
use crate::turns::*;

/// The most lines of a season that are fed, and the most that are refused one after the other.
const LONGEST: usize = 100;
const MOST_REFUSED: usize = 4;

/// Makes one list's calls, as far as they are right.
pub fn run(bench: &mut Bench, rng: &mut Rng) -> Held<()> {
    bench.start(rng.one_in(2));
    match rng.below(16) {
        0..=2 => season_list(bench, rng),
        3..=8 => state_list(bench, rng),
        9..=12 if rng.one_in(16) => stand_list(bench, rng),
        9..=12 => group_list(bench, rng),
        13 | 14 => text_list(bench, rng),
        _ => writer_list(bench, rng),
    }
}

fn short_season(rng: &mut Rng) -> Season {
    let number = any_short_tree(rng);
    let header = short_period(rng, number);
    plausible(rng, header)
}

/// Of any tree, over many days now and then.
fn any_season(rng: &mut Rng) -> Season {
    if !rng.one_in(64) {
        return short_season(rng);
    }
    let number = any_tree(rng);
    let length = rng.between(51, 70);
    let header = period(rng, number, length);
    plausible(rng, header)
}

/// Of short texts.
#[rustfmt::skip]
const IN_TURN: [fn(&mut Rng, u64) -> Vec<u8>; 14] = [
    every_byte, every_length, every_kind, every_reading, every_field, every_bend, every_border,
    every_mixture, every_ceiling, every_gap, every_parameter, every_place, every_warmth, every_sum,
];

/// A season's text, whole, damaged, cut, or one of those that go through a list in turn.
fn any_text(rng: &mut Rng) -> Vec<u8> {
    let season = any_season(rng);
    match rng.below(9) {
        0 | 1 => text(rng, &season.lines()),
        2 | 3 => {
            let lines = damage(rng, &season);
            text(rng, &lines)
        }
        4 => {
            let lines = damaged_header(rng, &season);
            text(rng, &lines)
        }
        5 => {
            let whole = text(rng, &season.lines());
            if rng.one_in(2) {
                cut(rng, whole)
            } else {
                disturb(rng, whole)
            }
        }
        6 if rng.one_in(4) => noise(rng),
        _ => {
            let turn = rng.next() >> 16;
            rng.pick(&IN_TURN)(rng, turn)
        }
    }
}

// ---- one account

/// Bytes that hold an account, or a fresh one.
fn account_in(bytes: &[u8]) -> Account {
    Account::taken_up(bytes).unwrap_or(Account::fresh())
}

/// A season's lines to a fresh account, other calls in between; on the way the account is stored
/// and taken up again.
fn season_list(bench: &mut Bench, rng: &mut Rng) -> Held<()> {
    let text = any_text(rng);
    let mut account = noise_account(rng);
    stretch(rng, &mut account);
    bench.fresh(&mut account)?;
    account.resize(rng.pick(&[SIZE, SIZE, SIZE + 1, 200]), 0);
    bench.fresh(&mut account)?;
    let mut refused = 0;
    for line in lines(&text).into_iter().take(LONGEST) {
        if rng.one_in(8) {
            aside(bench, rng, &mut account)?;
        }
        let code = if rng.one_in(12) {
            tried(bench, &mut account, line)?
        } else {
            bench.feed(&mut account, line)?
        };
        refused = if code == 0 { 0 } else { refused + 1 };
        if refused == MOST_REFUSED {
            break;
        }
    }
    bench.read(&account)
}

/// A line tried, and the trial taken at once.
fn tried(bench: &mut Bench, account: &mut Vec<u8>, line: &[u8]) -> Held<u32> {
    let mut trial = vec![0; TRIAL];
    bench.trial(account, line, &mut trial)?;
    bench.take(account, &trial)
}

/// Calls on an account from hostile bytes.
fn state_list(bench: &mut Bench, rng: &mut Rng) -> Held<()> {
    let mut account = any_state(rng);
    bench.read(&account)?;
    for _ in 0..rng.between(2, 10) {
        if rng.one_in(2) {
            let line = any_line(rng, &account_in(&account));
            bench.feed(&mut account, &line)?;
        } else {
            aside(bench, rng, &mut account)?;
        }
    }
    bench.read(&account)
}

/// A call beside the lines; now and then it moves the account on.
fn aside(bench: &mut Bench, rng: &mut Rng, account: &mut Vec<u8>) -> Held<()> {
    match rng.below(8) {
        0 => bench.read(account),
        1 => bench.line(account, &any_buffer(rng, 40)),
        2 => printed_tight(bench, rng, account),
        3 => damaged_copy(bench, rng, account),
        4 | 5 => trials(bench, rng, account),
        _ => floats(bench, rng, account),
    }
}

/// The hour that is due as floats; seldom to an account of other hours.
fn floats(bench: &mut Bench, rng: &mut Rng, account: &mut Vec<u8>) -> Held<()> {
    let held = account_in(account);
    if held[KIND] > 2 && !rng.one_in(6) {
        return bench.read(account);
    }
    bench.feed_floats(account, &any_floats(rng, &held)).map(drop)
}

/// The account's line into a buffer of just its length, or one byte short.
fn printed_tight(bench: &mut Bench, rng: &mut Rng, account: &[u8]) -> Held<()> {
    let length = line_of_bytes(account).len();
    bench.line(account, &any_buffer(rng, length))
}

/// The account stored, damaged and taken up again.
fn damaged_copy(bench: &mut Bench, rng: &mut Rng, account: &[u8]) -> Held<()> {
    let mut copy = account.to_vec();
    match rng.below(3) {
        0 => flip(rng, &mut copy),
        1 => stretch(rng, &mut copy),
        _ => copy = broken_account(rng, &account_in(account)).stored(),
    }
    bench.read(&copy)?;
    let line = any_line(rng, &account_in(&copy));
    bench.feed(&mut copy, &line)?;
    bench.read(&copy)
}

/// A trial made and taken: at once, later, twice, with another account, damaged, or made by hand.
fn trials(bench: &mut Bench, rng: &mut Rng, account: &mut Vec<u8>) -> Held<()> {
    let held = account_in(account);
    let line = any_line(rng, &held);
    let mut trial = vec![
        rng.next() as u8;
        rng.pick(&[TRIAL, TRIAL, TRIAL, TRIAL, TRIAL + 1, 300, TRIAL - 1, 0])
    ];
    bench.trial(account, &line, &mut trial)?;
    match rng.below(8) {
        0 | 1 => {}
        2 => {
            let later = any_line(rng, &held);
            bench.feed(account, &later)?;
        }
        3 => {
            bench.take(account, &trial)?;
        }
        4 => {
            let mut other =
                if rng.one_in(2) { any_state(rng) } else { broken_account(rng, &held).stored() };
            bench.take(&mut other, &trial)?;
        }
        5 => flip(rng, &mut trial),
        6 => trial = made_trial(rng, account),
        _ => carry(rng, &mut trial),
    }
    bench.take(account, &trial).map(drop)
}

/// Any answer, in a trial that was made.
fn carry(rng: &mut Rng, trial: &mut [u8]) {
    let row = rng.between(0, 27) as u8;
    let field =
        if row == 10 || row == 26 { rng.below(10) as u8 } else { rng.pick(&[0, 0, 0, 1, 255]) };
    for (byte, new) in trial.iter_mut().zip([field, row]) {
        *byte = new;
    }
}

/// A trial that nothing made: of the account, mostly, and with any other to follow it.
fn made_trial(rng: &mut Rng, account: &[u8]) -> Vec<u8> {
    let mut trial = vec![0; TRIAL];
    let mut put = |range: std::ops::Range<usize>, bytes: &[u8]| {
        trial[range].iter_mut().zip(bytes).for_each(|(old, new)| *old = *new)
    };
    put(TRIED, account);
    put(FOLLOWING, &any_state(rng));
    if rng.one_in(4) {
        carry(rng, &mut trial);
    }
    if rng.one_in(6) {
        trial[0] = rng.below(3) as u8;
        trial[1] = rng.pick(&[0, 27, 32, 128, 255]);
    }
    trial
}

// ---- several accounts

/// Lines to a list of accounts, alike mostly.
fn group_list(bench: &mut Bench, rng: &mut Rng) -> Held<()> {
    let count = rng.pick(&[0, 1, 2, 2, 3, 3, 4, 5, 6, 6, 7]);
    let first = possible_account(rng);
    let mut accounts: Vec<u8> = (0..count).flat_map(|_| member(rng, &first).stored()).collect();
    if rng.one_in(6) && count > 0 {
        let at = SIZE * rng.below(count);
        accounts[at..at + SIZE].copy_from_slice(&other_member(rng, &first));
    }
    accounts.resize(accounts.len() + rng.pick(&[0, 0, 0, 1, SIZE - 1]), 0xA5);
    for _ in 0..rng.between(1, 6) {
        let due_to =
            if count > 0 { account_in(&accounts[SIZE * rng.below(count)..]) } else { first };
        let line = if rng.one_in(2) { due_line(rng, &due_to) } else { any_line(rng, &due_to) };
        bench.feed_all(&mut accounts, &line)?;
        if rng.one_in(6) {
            let at = if count > 0 { SIZE * rng.below(count) } else { 0 };
            bench.read(&accounts[at..])?;
        }
    }
    Ok(())
}

/// Trees around one mast: each opened alone, then the season's lines to all of them, damaged now
/// and then.
fn stand_list(bench: &mut Bench, rng: &mut Rng) -> Held<()> {
    let season = short_season(rng);
    let mut accounts = Vec::new();
    for _ in 0..rng.between(1, 6) {
        let tree = rng.pick(&[3, 6, 7]);
        let header =
            Header { tree, level: any_level(rng), own: None, warmth: None, ..season.header };
        let mut account = Account::fresh().stored();
        let opening = Season { header: with_own(rng, header), ceiling: 0, hours: vec![] };
        for line in &opening.lines()[..opening.line_of(0)] {
            bench.feed(&mut account, line)?;
        }
        accounts.extend(account);
    }
    let rest = if rng.one_in(2) { season.lines() } else { damage(rng, &season) };
    let mut refused = 0;
    for line in rest.iter().skip(season.ceiling_place()) {
        refused = if bench.feed_all(&mut accounts, line)? == 0 { 0 } else { refused + 1 };
        if refused == MOST_REFUSED {
            break;
        }
    }
    accounts.chunks(SIZE).try_for_each(|account| bench.read(account))
}

/// Another account of the same stand: tree, level, parameters and warmth may differ.
fn member(rng: &mut Rng, first: &Account) -> Account {
    let mut other = *first;
    if first[PHASE] == FRESH {
        return other;
    }
    other[LEVEL] = any_level(rng) as i128;
    if rng.one_in(2) {
        with_other_tree(rng, &mut other);
    }
    if is_impossible(&other) {
        *first
    } else {
        other
    }
}

/// Mostly a tree of the same soil measure: its parameters and its warmth by chance, before the
/// first hour none now and then.
fn with_other_tree(rng: &mut Rng, account: &mut Account) {
    let tree = rng.pick(if account[TREE] < 3 {
        &[1, 2, 1, 2, 3]
    } else {
        &[3, 4, 5, 6, 7, 7, 7, 7, 7, 2]
    });
    for at in RISE..NUMBERS {
        account[at] = 0;
    }
    (account[SUM], account[TOTAL], account[TREE]) = (0, 0, tree);
    if tree != 7 || account[HOURS] == 0 && account[CEILING] == 0 && rng.one_in(3) {
        return;
    }
    let header = with_own(rng, account.header());
    let figures = *account;
    *account = opened(&header);
    for at in (PHASE..SUM).chain([CEILING]) {
        account[at] = figures[at];
    }
}

/// One that does not fit: unlike in a number, impossible, or no account.
fn other_member(rng: &mut Rng, first: &Account) -> Vec<u8> {
    let mut other = *first;
    match rng.below(4) {
        0 => possible_account(rng).stored(),
        1 => noise_account(rng),
        2 => broken_account(rng, first).stored(),
        _ => {
            let at = rng.pick(&[DAYS, FIRST, LAST, HOURS, PHASE, CEILING, KIND, TREE]);
            let off = if rng.one_in(2) { 1 } else { -1 };
            other.set(at, first[at] + off);
            other.stored()
        }
    }
}

// ---- texts and writers

/// A comparison, a worst stretch and a report.
fn text_list(bench: &mut Bench, rng: &mut Rng) -> Held<()> {
    let whole = any_season(rng).lines();
    let first = if rng.one_in(3) { text(rng, &whole) } else { any_text(rng) };
    let second = second_text(rng, &first);
    let far = rng.between(0, 5000);
    bench.compare(&first, &second, rng.pick(&[0, 0, 1, 10, 4999, 5000, far, 0xFFFF]) as u16)?;
    let any = rng.between(1, 366);
    let days = rng.pick(&[0, 1, 1, 1, 1, 2, 2, 3, 4, 5, 60, 366, 367, 0xFFFF, any]);
    bench.worst_stretch(&first, days as u16, &any_buffer(rng, 3 * days as usize))?;
    let length = rng.pick(&[600, 40, 20]);
    bench.report(&first, &any_buffer(rng, length))
}

/// The same text with other ozone, with another reading or an ozone lost besides, damaged, or
/// another text.
fn second_text(rng: &mut Rng, first: &[u8]) -> Vec<u8> {
    let mut lines: Lines = lines(first).into_iter().map(<[u8]>::to_vec).collect();
    let often = rng.pick(&[1, 3, 20, 1000]);
    let far = rng.pick(&[2, 20, 5000]);
    for line in lines.iter_mut().filter(|line| is_hour(line)) {
        if rng.one_in(often) {
            put(line, 8, &pair(rng.between(0, far)));
        }
    }
    if !lines.is_empty() {
        match rng.below(9) {
            0 => wrong_digit(rng, &mut lines),
            1 => wrong_turn(rng, &mut lines),
            2 => change_digit(rng, &mut lines),
            3 => lost_ozone(rng, &mut lines),
            4 | 5 => return any_text(rng),
            _ => {}
        }
    }
    text(rng, &lines)
}

/// One digit of a line another digit.
fn change_digit(rng: &mut Rng, lines: &mut Lines) {
    let at = rng.below(lines.len());
    if lines[at].len() > 2 {
        let place = rng.between(2, lines[at].len() as i64 - 1) as usize;
        lines[at][place] = rng.pick(b"0123456789ABCDEF");
    }
}

fn writer_list(bench: &mut Bench, rng: &mut Rng) -> Held<()> {
    for _ in 0..rng.between(4, 16) {
        bench.any_writer(rng)?;
    }
    Ok(())
}

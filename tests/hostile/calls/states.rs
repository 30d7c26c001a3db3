//! Accounts by chance: those that row 13 lets pass, often at its limits; those just past a limit;
//! and bytes that are hardly any.

use crate::account::Header;
use crate::layout::*;
use crate::parameters::{F1, F4, RANGES, SOIL_MAX, TMIN, TOPT, VPD_MAX};
use crate::possible::*;
use crate::rng::Rng;
use crate::season::{any_ceiling, any_tree, period, short_period};
use crate::warmth::{any_warmth, DEGREE_DAY};

/// A number from a range, often an end of it or next to one.
fn within(rng: &mut Rng, least: i128, most: i128) -> i128 {
    let any = least + (rng.next() as i128).rem_euclid(most - least + 1);
    rng.pick(&[least, most, least + 1, most - 1, any, any]).clamp(least, most)
}

/// A buffer for so many bytes: enough, one too few, none or far more, with any bytes in it.
pub fn any_buffer(rng: &mut Rng, needed: usize) -> Vec<u8> {
    let length =
        rng.pick(&[needed, needed, needed, needed + 1, needed + 30, needed.saturating_sub(1), 0]);
    (0..length).map(|_| rng.next() as u8).collect()
}

/// Any account that row 13 lets pass, of a season or not.
pub fn possible_account(rng: &mut Rng) -> Account {
    if rng.one_in(8) {
        return Account::fresh();
    }
    let header = any_header(rng);
    let mut account = opened(&header);
    if rng.one_in(2) {
        account[CEILING] = any_ceiling(rng) as i128;
    }
    if header.tree == 7 && rng.one_in(6) {
        return without_parameters(account);
    }
    add_hours(rng, &mut account);
    add_figures(rng, &mut account);
    add_warmth(rng, &mut account);
    account
}

fn any_header(rng: &mut Rng) -> Header {
    let tree = any_tree(rng);
    let mut header = if rng.one_in(4) { period(rng, tree, 60) } else { short_period(rng, tree) };
    if tree == 7 && rng.one_in(2) {
        header.warmth = Some(any_warmth(rng, header.last - header.first + 1));
    }
    header
}

/// The account that a header and what follows it leave.
pub fn opened(header: &Header) -> Account {
    let mut book = Account::fresh().book();
    book.header = Some(*header);
    Account::fresh().after(&book)
}

/// Tree 7 with nothing after its header.
fn without_parameters(mut account: Account) -> Account {
    for at in CEILING..NUMBERS {
        account[at] = 0;
    }
    account
}

/// Some hours, at the ends of a day and of the period often; closed where none is due, now and
/// then.
fn add_hours(rng: &mut Rng, account: &mut Account) {
    let period = period_hours(account);
    let any = within(rng, 0, period);
    let hours =
        rng.pick(&[0, 1, 23, 24, 25, period - 2, period - 1, period - 1, period, period, any, any]);
    account[HOURS] = hours.clamp(0, period);
    if account[HOURS] > 0 {
        account[KIND] = rng.pick(&[2, 2, 4, 5]);
    }
    if account[HOURS] == period && rng.one_in(3) {
        account[PHASE] = CLOSED;
    }
    account[COUNTED] = within(rng, 0, account[HOURS]);
    if account[CEILING] > 0 {
        account[MISSING] = within(rng, 0, account[COUNTED]);
    }
}

/// Lower and upper, and AOT40's two, as far apart as they may be and as great, or near the level.
fn add_figures(rng: &mut Rng, account: &mut Account) {
    let (most, gap) = dose_limits(account);
    let level = 10000 * account[LEVEL] + rng.between(-2, 2) as i128;
    let any = within(rng, 0, most);
    account[UPPER] = rng.pick(&[any, any, level]).clamp(0, most);
    account[LOWER] = within(rng, (account[UPPER] - gap).max(0), account[UPPER]);
    account[MOST] = within(rng, 0, MOST_AOT40 * account[COUNTED]);
    account[LEAST] =
        within(rng, (account[MOST] - MOST_AOT40 * account[MISSING]).max(0), account[MOST]);
}

/// The sum at its limits or where f_phen bends, the total at its limits.
fn add_warmth(rng: &mut Rng, account: &mut Account) {
    if account.header().warmth.is_none() {
        return;
    }
    let (whole, running) = parted_hours(account);
    let bend = rng.pick(&[account[RISE], account[END] - account[FALL], account[END]])
        * DEGREE_DAY as i128
        + rng.between(-1, 1) as i128;
    let any = within(rng, 0, WARMEST * whole);
    account[SUM] = rng.pick(&[any, bend]).clamp(0, WARMEST * whole);
    account[TOTAL] = within(rng, COLDEST * running, WARMEST * running);
}

// ---- past a limit

/// The account with one number, now and then two or three, next to a limit of row 13 or of the
/// bytes; or without its parameters, or its warmth.
pub fn broken_account(rng: &mut Rng, account: &Account) -> Account {
    let mut broken = *account;
    if rng.one_in(8) {
        let lost = if rng.one_in(2) { OWN..NUMBERS } else { RISE..OWN };
        lost.for_each(|at| broken[at] = 0);
        return broken;
    }
    for _ in 0..rng.pick(&[1, 1, 1, 1, 2, 3]) {
        let limits = limits_of(&broken);
        let (at, limit) = rng.pick(&limits);
        broken.set(at, limit + rng.between(-1, 1) as i128);
    }
    broken
}

/// Where row 13 begins to refuse each number, the others as they are.
fn limits_of(account: &Account) -> Vec<(usize, i128)> {
    let n = |at: usize| account[at];
    let (most, gap) = dose_limits(account);
    let (whole, running) = parted_hours(account);
    let missing = MOST_AOT40 * n(MISSING);
    let ramps = account.header().own.map_or(50, |own| own.ramps() as i128);
    #[rustfmt::skip]
    let mut limits = vec![
        (VERSION, 1), (PHASE, FRESH), (PHASE, OPEN), (PHASE, CLOSED), (KIND, 0), (KIND, 2),
        (KIND, 4), (KIND, 5), (HOURS, 0), (HOURS, period_hours(account)), (HOURS, n(COUNTED)),
        (HOURS, whole), (COUNTED, 0), (COUNTED, n(HOURS)), (COUNTED, n(MISSING)), (MISSING, 0),
        (MISSING, n(COUNTED)), (LOWER, 0), (LOWER, n(UPPER)), (LOWER, n(UPPER) - gap), (UPPER, 0),
        (UPPER, n(LOWER)), (UPPER, most), (UPPER, n(LOWER) + gap), (UPPER, -1), (LOWER, -1),
        (LEAST, 0), (LEAST, n(MOST)), (LEAST, n(MOST) - missing), (MOST, 0), (MOST, n(LEAST)),
        (MOST, MOST_AOT40 * n(COUNTED)), (MOST, n(LEAST) + missing), (SUM, 0),
        (SUM, WARMEST * whole), (SUM, -1), (TOTAL, 0), (TOTAL, WARMEST * running),
        (TOTAL, COLDEST * running), (TREE, 1), (TREE, 4), (TREE, 7), (DAYS, 365), (DAYS, n(LAST)),
        (FIRST, 1), (FIRST, n(LAST)), (FIRST, n(LAST) - ramps), (LAST, n(FIRST)), (LAST, n(DAYS)),
        (LAST, n(FIRST) + ramps), (LAST, n(FIRST) + n(HOURS) / 24), (LEVEL, 1), (LEVEL, 10000),
        (LEVEL, -1), (CEILING, 1), (CEILING, 5000), (CEILING, -1), (RISE, 0),
        (RISE, n(END) - n(FALL)), (FALL, 0), (FALL, n(END) - n(RISE)), (END, n(RISE) + n(FALL)),
        (END, 1), (END, 5000),
    ];
    limits.extend(parameter_limits(account));
    limits
}

/// The ends of each parameter's range, its neighbour, and the ramps that the period allows.
fn parameter_limits(account: &Account) -> Vec<(usize, i128)> {
    let own = |n: usize| account[OWN + n];
    let ranges = RANGES
        .iter()
        .enumerate()
        .flat_map(|(n, &(least, most))| [(n, least as i128), (n, most as i128)]);
    let rising = [TMIN, TOPT, VPD_MAX, SOIL_MAX]
        .into_iter()
        .flat_map(|n| [(n, own(n + 1)), (n + 1, own(n))]);
    let days = account[LAST] - account[FIRST];
    let ramps = [(F1, days - own(F4)), (F4, days - own(F1))];
    ranges.chain(rising).chain(ramps).map(|(n, limit)| (OWN + n, limit)).collect()
}

/// Any bytes, mostly with a version, a phase and a kind that an account has.
pub fn noise_account(rng: &mut Rng) -> Vec<u8> {
    let mut bytes: Vec<u8> = (0..SIZE).map(|_| rng.next() as u8).collect();
    if rng.one_in(2) {
        bytes[3..].iter_mut().for_each(|byte| *byte = if *byte < 64 { *byte } else { 0 });
    }
    if !rng.one_in(8) {
        bytes[0] = 1;
        bytes[1] = rng.below(3) as u8;
        bytes[2] = rng.pick(&[0, 2, 4, 5]);
    }
    bytes
}

/// The bytes of an account, or what hostile hands left of them.
pub fn any_state(rng: &mut Rng) -> Vec<u8> {
    let account = possible_account(rng);
    let mut bytes = match rng.below(8) {
        0..=3 => account.stored(),
        4..=6 => broken_account(rng, &account).stored(),
        _ => noise_account(rng),
    };
    match rng.below(12) {
        0 => flip(rng, &mut bytes),
        1 => stretch(rng, &mut bytes),
        _ => {}
    }
    bytes
}

/// One bit, or one byte, changed.
pub fn flip(rng: &mut Rng, bytes: &mut [u8]) {
    if !bytes.is_empty() {
        let at = if rng.one_in(3) { rng.below(bytes.len().min(3)) } else { rng.below(bytes.len()) };
        bytes[at] ^= if rng.one_in(4) { rng.next() as u8 } else { 1 << rng.below(8) };
    }
}

/// Bytes behind the account lost, or others put there.
pub fn stretch(rng: &mut Rng, bytes: &mut Vec<u8>) {
    let length = rng.pick(&[0, 1, SIZE - 1, SIZE, SIZE + 1, 200]);
    let filling = rng.next() as u8;
    bytes.resize(length, filling);
}

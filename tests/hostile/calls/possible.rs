//! Row 13: the account that no season gives (docs/SPECIFICATION.md, "Turned-back lines").

use crate::account::{limits, Book, Frame, Header};
use crate::frames::NEWEST;
use crate::layout::*;

/// AOT40 in an hour at most, tenths of ppb h.
pub const MOST_AOT40: i128 = 4600;
/// Tenths of a degree in an hour.
pub const WARMEST: i128 = 600;
pub const COLDEST: i128 = -500;

pub fn is_impossible(account: &Account) -> bool {
    if account[PHASE] == FRESH {
        return (PHASE..NUMBERS).any(|at| account[at] != 0);
    }
    !opens(account)
        || hours_broken(account)
        || dose_broken(account)
        || aot40_broken(account)
        || warmth_broken(account)
}

/// The hours of an account's period.
pub fn period_hours(account: &Account) -> i128 {
    24 * (account[LAST] - account[FIRST] + 1)
}

/// Whether the frames before the first hour can have said this: those whose numbers are not 0, fed
/// one after the other, are accepted.
fn opens(account: &Account) -> bool {
    let mut book = Book::new(NEWEST);
    let header = account.header();
    let alone = Header { own: None, warmth: None, ..header };
    let ceiling = account[CEILING] as i64;
    book.feed(Frame::Header(alone)).is_ok()
        && header.own.is_none_or(|own| book.feed(Frame::Parameters(own)).is_ok())
        && header.warmth.is_none_or(|warmth| book.feed(Frame::Warmth(warmth)).is_ok())
        && (ceiling == 0 || book.feed(Frame::Ceiling { ozone: ceiling }).is_ok())
}

fn hours_broken(account: &Account) -> bool {
    let hours = account[HOURS];
    let due = period_hours(account) - hours;
    let lacks_parameters = account[TREE] == 7 && account.header().own.is_none();
    due < 0
        || account[PHASE] == CLOSED && due > 0
        || (hours > 0) != (account[KIND] != 0)
        || lacks_parameters && hours > 0
        || account[COUNTED] > hours
        || account[MISSING] > account[COUNTED]
        || account[MISSING] > 0 && account[CEILING] == 0
}

/// The most that counted hours can bring, and how far lower and upper may be apart.
pub fn dose_limits(account: &Account) -> (i128, i128) {
    let (most, each) = limits(account[TREE] as i64);
    let (most, each) = (most as i128, each as i128);
    (
        most * account[COUNTED],
        each * (account[COUNTED] - account[MISSING]) + most * account[MISSING],
    )
}

fn dose_broken(account: &Account) -> bool {
    let (most, gap) = dose_limits(account);
    let (lower, upper) = (account[LOWER], account[UPPER]);
    lower > upper || upper > most || upper - lower > gap
}

fn aot40_broken(account: &Account) -> bool {
    let (least, most) = (account[LEAST], account[MOST]);
    least > most
        || most > MOST_AOT40 * account[COUNTED]
        || most - least > MOST_AOT40 * account[MISSING]
}

/// The hours of the whole days, and those of the running day.
pub fn parted_hours(account: &Account) -> (i128, i128) {
    let running = account[HOURS] % 24;
    (account[HOURS] - running, running)
}

fn warmth_broken(account: &Account) -> bool {
    let (sum, total) = (account[SUM], account[TOTAL]);
    if account.header().warmth.is_none() {
        return sum != 0 || total != 0;
    }
    let (whole, running) = parted_hours(account);
    sum > WARMEST * whole || total > WARMEST * running || total < COLDEST * running
}

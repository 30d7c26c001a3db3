//! What is fed to an account: the line that is due, that line damaged, or the hour as floats.

use crate::account::Header;
use crate::damage::*;
use crate::feeding::Floats;
use crate::frames::*;
use crate::layout::CEILING as CEILING_AT;
use crate::layout::{Account, FRESH, HOURS, KIND, PHASE};
use crate::parameters::{any_parameters, broken};
use crate::possible::period_hours;
use crate::rng::Rng;
use crate::season::*;
use crate::trees::{tree, Tree};
use crate::warmth::{any_warmth, broken_warmth};

/// The tree of any account's header: the evergreen where there is none.
fn tree_of(header: &Header) -> Tree {
    match header.tree {
        1..=6 => *tree(header.tree),
        _ => header.own.filter(|own| own.are_sound()).map_or(*tree(6), |own| own.tree()),
    }
}

/// Readings in range, mostly such that the leaf takes up ozone; without ozone now and then where
/// there is a ceiling.
fn any_readings(rng: &mut Rng, of: &Tree, kind: i64, ceiling: i128) -> Readings {
    let mut values = [600, 900, 450, of.temperature[1].min(600), of.vpd[0], 200, of.soil[0], 9800];
    if kind == 5 {
        values[HUMIDITY] = rng.between(300, 1000);
    }
    let mut readings = Readings { kind, values };
    for reading in 0..readings_of(kind) {
        let (least, most) = range(of.number, kind, reading);
        if rng.one_in(4) {
            readings[reading] = rng.between(least, most);
        }
    }
    if rng.one_in(2) {
        light_up(rng, &mut readings);
    }
    if rng.one_in(3) {
        put_to_corners(rng, of, &mut readings);
    }
    if rng.one_in(if ceiling > 0 { 3 } else { 60 }) {
        readings[OZONE] = MISSING;
    }
    readings
}

/// The hour that is due, or would be, in the account's kind or any.
fn due_hour(rng: &mut Rng, account: &Account) -> (i64, i64, Readings) {
    let header = account.header();
    let hours = account[HOURS] as i64;
    let kind = if account[KIND] == 0 { any_kind(rng) } else { account[KIND] as i64 };
    let readings = any_readings(rng, &tree_of(&header), kind, account[CEILING_AT]);
    ((header.first + hours / 24) & 0xFFFF, hours % 24, readings)
}

/// The frames that an account can take.
enum Due {
    Header,
    Parameters,
    Warmth,
    Ceiling,
    Hour,
    End,
}

/// The frame that is due: by chance where there are several.
fn due(rng: &mut Rng, account: &Account) -> Due {
    let header = account.header();
    let is_first = account[HOURS] == 0 && account[CEILING_AT] == 0;
    if account[PHASE] == FRESH {
        Due::Header
    } else if header.tree == 7 && header.own.is_none() {
        Due::Parameters
    } else if is_first && header.own.is_some() && header.warmth.is_none() && rng.one_in(3) {
        Due::Warmth
    } else if is_first && rng.one_in(3) {
        Due::Ceiling
    } else if account[HOURS] >= period_hours(account) {
        Due::End
    } else {
        Due::Hour
    }
}

/// The days that ramps may take up; none where the period is broken.
fn ramp_days(header: &Header) -> i64 {
    (header.last - header.first).max(0)
}

/// A line that the account takes, where row 13 lets it pass.
pub fn due_line(rng: &mut Rng, account: &Account) -> Vec<u8> {
    let days = ramp_days(&account.header());
    let line = match due(rng, account) {
        Due::Header => {
            let number = any_tree(rng);
            header_line(&short_period(rng, number))
        }
        Due::Parameters => any_parameters(rng, days).line(),
        Due::Warmth => any_warmth(rng, days).line(),
        Due::Ceiling => ceiling_line(any_ceiling(rng)),
        Due::Hour => {
            let (day, hour, readings) = due_hour(rng, account);
            hour_line(day, hour, &readings)
        }
        Due::End => end_line(account[HOURS] as i64),
    };
    line.into_bytes()
}

/// The frame that is due with a number out of its range, or next to that.
fn faulty_line(rng: &mut Rng, account: &Account, season: &Season) -> Vec<u8> {
    let days = ramp_days(&account.header()) + rng.pick(&[0, 1, 200]);
    let line = match due(rng, account) {
        Due::Header => return damaged_header(rng, season).swap_remove(0),
        Due::Parameters => {
            let sound = any_parameters(rng, days);
            if rng.one_in(2) {
                sound.line()
            } else {
                broken(rng, &sound).line()
            }
        }
        Due::Warmth => broken_warmth(rng).line(),
        Due::Ceiling => ceiling_line(rng.pick(&[0, 1, 5000, 5001, 0x8000, 0xFFFF])),
        Due::Hour => {
            let (day, hour, readings) = due_hour(rng, account);
            let mut lines = vec![hour_line(day, hour, &readings).into_bytes()];
            past_range(rng, season, &mut lines);
            return lines.swap_remove(0);
        }
        Due::End => end_line(account[HOURS] as i64 + rng.between(-1, 1)),
    };
    line.into_bytes()
}

/// The line that is due, or one that is damaged or out of turn.
pub fn any_line(rng: &mut Rng, account: &Account) -> Vec<u8> {
    match rng.below(8) {
        0..=3 => return due_line(rng, account),
        4 | 5 => return other_line(rng, account),
        _ => {}
    }
    let season = one_hour(rng, account);
    let mut lines = vec![due_line(rng, account)];
    match rng.below(8) {
        0 => wrong_length(rng, &mut lines),
        1 => wrong_digit(rng, &mut lines),
        2 => wrong_kind(rng, &mut lines),
        3 => wrong_hour(rng, &mut lines),
        _ => return faulty_line(rng, account, &season),
    }
    lines.swap_remove(0)
}

/// A season of the hour that is due.
fn one_hour(rng: &mut Rng, account: &Account) -> Season {
    let number = any_tree(rng);
    let mut header =
        if account[PHASE] == FRESH { short_period(rng, number) } else { account.header() };
    header.last = header.last.max(1); // the day before the first is damaged_header's
    let (_, _, readings) = due_hour(rng, account);
    Season { header, ceiling: 0, hours: vec![readings] }
}

/// A frame of any kind, in range or next to it, whatever is due.
fn other_line(rng: &mut Rng, account: &Account) -> Vec<u8> {
    let header = account.header();
    let days = ramp_days(&header) + rng.pick(&[0, 0, 1, 200]);
    let sound = any_parameters(rng, days);
    let hours = account[HOURS] as i64;
    let line = match rng.below(9) {
        0 => sound.line(),
        1 => broken(rng, &sound).line(),
        2 => any_warmth(rng, days).line(),
        3 => broken_warmth(rng).line(),
        4 => ceiling_line(rng.pick(&[0, 1, 5000, 5001, 0x8000, 0xFFFF])),
        5 => end_line(hours + rng.between(-1, 1)),
        6 => {
            let number = any_tree(rng);
            header_line(&short_period(rng, number))
        }
        _ => {
            let (day, hour, readings) = due_hour(rng, account);
            let kind = any_kind(rng);
            hour_line(day, hour, &readings.as_kind(header.tree, kind))
        }
    };
    line.into_bytes()
}

// ---- floats

const ODD: [f32; 24] = [
    f32::NAN,
    f32::INFINITY,
    f32::NEG_INFINITY,
    0.5,
    -0.5,
    0.1,
    5000.5,
    1e-45,
    -1e-45,
    f32::MIN_POSITIVE,
    1e30,
    -1e30,
    f32::MAX,
    f32::MIN,
    65535.0,
    65534.0,
    65536.0,
    70000.0,
    -1.0,
    -65535.0,
    8388607.5,
    16777216.0,
    4294967296.0,
    1.8446744e19,
];

/// The hour that is due as floats, mostly with a reading or two that are odd.
pub fn any_floats(rng: &mut Rng, account: &Account) -> Floats {
    let (day, hour, readings) = due_hour(rng, account);
    let readings = readings.as_kind(account.header().tree, 2);
    let mut floats = Floats { day: day as u16, hour: hour as u8, readings: [0.0; 7] };
    for (float, value) in floats.readings.iter_mut().zip(readings.values) {
        *float = if value == 0 && rng.one_in(2) { -0.0 } else { value as f32 };
    }
    for _ in 0..rng.pick(&[0, 0, 0, 1, 1, 2, 3]) {
        let at = rng.below(7);
        floats.readings[at] = odd(rng, account.header().tree, at);
    }
    match rng.below(16) {
        0 => floats.day = floats.day.wrapping_add(rng.pick(&[1, 0xFFFF])),
        1 => floats.hour = rng.pick(&[0, 23, 24, 255]),
        _ => {}
    }
    floats
}

/// Not finite, not whole, out of range, at an end of it or one past, or of any bits.
fn odd(rng: &mut Rng, number: i64, reading: usize) -> f32 {
    let (least, most) = range(number, 2, reading);
    match rng.below(6) {
        0 => rng.pick(&[least - 1, least, most, most + 1]) as f32,
        1 => rng.pick(&[least, most]) as f32 + rng.pick(&[0.5, -0.5, 0.25]),
        2 => f32::from_bits(rng.next() as u32),
        3 => -0.0,
        _ => rng.pick(&ODD),
    }
}

//! Damaged texts: what a broken sender or a bad transmission leaves of a season, and texts that
//! never were one.

use crate::account::Header;
use crate::frames::*;
use crate::parameters::{any_parameters, broken, Parameters, PARAMETERS};
use crate::rng::Rng;
use crate::season::*;
use crate::warmth::{any_warmth, broken_warmth, WARMTH};

pub type Lines = Vec<Vec<u8>>;

/// The text of lines, with or without its last line feed.
pub fn text(rng: &mut Rng, lines: &Lines) -> Vec<u8> {
    let mut text = lines.join(&b'\n');
    if !lines.is_empty() && !rng.one_in(3) {
        text.push(b'\n');
    }
    text
}

/// The last ones need a second hour kind, a ceiling, parameters, or warmth.
const DAMAGES: usize = match NEWEST {
    ..=3 => 8,
    4 | 5 => 9,
    6 => 11,
    7 => 12,
    _ => 13,
};

/// One to three damages of any kind.
pub fn damage(rng: &mut Rng, season: &Season) -> Lines {
    let mut lines = season.lines();
    for _ in 0..rng.pick(&[1, 1, 1, 2, 3]) {
        match rng.below(DAMAGES) {
            0 => wrong_length(rng, &mut lines),
            1 => wrong_digit(rng, &mut lines),
            2 => wrong_kind(rng, &mut lines),
            3 => wrong_turn(rng, &mut lines),
            4 => wrong_hour(rng, &mut lines),
            5 => past_range(rng, season, &mut lines),
            6 => wrong_count(rng, &mut lines),
            7 => after_the_end(rng, season, &mut lines),
            8 => other_kind(rng, season, &mut lines),
            9 => wrong_ceiling(rng, &mut lines),
            10 => lost_ozone(rng, &mut lines),
            11 => wrong_parameters(rng, season, &mut lines),
            _ => wrong_warmth(rng, &mut lines),
        }
    }
    lines
}

/// The first or last line, or any.
fn any_line(rng: &mut Rng, lines: &Lines) -> usize {
    match rng.below(4) {
        0 => 0,
        1 => lines.len() - 1,
        _ => rng.below(lines.len()),
    }
}

fn any_digit(rng: &mut Rng) -> u8 {
    rng.pick(b"0123456789ABCDEF")
}

pub fn wrong_length(rng: &mut Rng, lines: &mut Lines) {
    let at = any_line(rng, lines);
    let length = match rng.below(5) {
        0 => rng.pick(&lengths()),
        1 => lines[at].len() + 1,
        2 => lines[at].len().saturating_sub(1),
        3 => rng.below(80),
        _ => return join_with_next(rng, lines),
    };
    let digit = any_digit(rng);
    lines[at].resize(length, digit);
}

/// The lengths of the frames and those next to them, in order, and 0.
fn lengths() -> Vec<usize> {
    let mut lengths: Vec<usize> =
        frames(NEWEST).iter().flat_map(|&(_, length)| [length - 1, length, length + 1]).collect();
    lengths.push(0);
    lengths.sort();
    lengths.dedup();
    lengths
}

/// A line feed lost.
fn join_with_next(rng: &mut Rng, lines: &mut Lines) {
    if lines.len() > 1 {
        let at = rng.below(lines.len() - 1);
        let next = lines.remove(at + 1);
        lines[at].extend(next);
    }
}

pub fn wrong_digit(rng: &mut Rng, lines: &mut Lines) {
    let at = any_line(rng, lines);
    if lines[at].is_empty() {
        return;
    }
    let place = rng.below(lines[at].len());
    let old = lines[at][place];
    lines[at][place] = match rng.below(4) {
        0 => old.to_ascii_lowercase(),
        1 => rng.pick(b"/:@Gafgx `~-+. \r\t\0\x7f"),
        2 => old ^ 0x80,
        _ => rng.below(256) as u8,
    };
}

pub fn wrong_kind(rng: &mut Rng, lines: &mut Lines) {
    let at = any_line(rng, lines);
    let near: Vec<i64> = (0..=NEWEST + 1).chain([16, 255]).collect();
    let kind = if rng.one_in(4) { rng.between(0, 255) } else { rng.pick(&near) };
    put(&mut lines[at], 0, &format!("{kind:02X}"));
}

/// Writes over a line's bytes, as far as the line goes.
pub fn put(line: &mut [u8], at: usize, bytes: &str) {
    for (old, new) in line.iter_mut().skip(at).zip(bytes.bytes()) {
        *old = new;
    }
}

/// Lines lost, doubled, swapped, moved.
pub fn wrong_turn(rng: &mut Rng, lines: &mut Lines) {
    let (at, other) = (any_line(rng, lines), any_line(rng, lines));
    match rng.below(6) {
        0 if lines.len() > 1 => {
            lines.remove(at);
        }
        1 => lines.insert(at, lines[at].clone()),
        2 => lines.swap(at, other),
        3 => lines.insert(other, lines[at].clone()),
        4 => lines.truncate(at + 1),
        _ => lines.drain(..at).for_each(drop),
    }
}

/// A day or an hour that is not due; now and then a reading out of range besides.
pub fn wrong_hour(rng: &mut Rng, lines: &mut Lines) {
    let at = rng.below(lines.len());
    match rng.below(3) {
        0 => {
            put(&mut lines[at], 6, &format!("{:02X}", rng.pick(&[0, 1, 22, 23, 24, 25, 128, 255])))
        }
        1 => put(&mut lines[at], 2, &pair(rng.between(0, 367))),
        _ => put(&mut lines[at], 2, &pair(rng.next() as i64)),
    }
    if rng.one_in(4) {
        put(&mut lines[at], 8, "FFFF");
    }
}

/// A reading one past its range, or anywhere out of it.
pub fn past_range(rng: &mut Rng, season: &Season, lines: &mut Lines) {
    let at = rng.below(lines.len());
    let kind = season.kind();
    let reading = rng.below(readings_of(kind));
    let (least, most) = range(season.header.tree, kind, reading);
    let value = match rng.below(4) {
        0 => least - 1,
        1 => most + 1,
        2 => rng.pick(&[0x7FFF, 0x8000, 0xFFFF]),
        _ => rng.between(most + 1, 0xFFFF),
    };
    put(&mut lines[at], 8 + 4 * reading, &pair(value));
}

/// An hour in a frame of any kind, for its own line or among the lines.
pub fn other_kind(rng: &mut Rng, season: &Season, lines: &mut Lines) {
    let n = rng.below(season.hours.len());
    let kind = any_kind(rng);
    let readings = season.hours[n].as_kind(season.header.tree, kind);
    let line = hour_line(season.day(n), n as i64 % 24, &readings).into_bytes();
    if rng.one_in(3) || season.line_of(n) >= lines.len() {
        lines.insert(rng.below(lines.len() + 1), line);
    } else {
        lines[season.line_of(n)] = line;
    }
}

/// A ceiling in range or not, put in at its place or elsewhere; or the one that is there lost or
/// changed.
pub fn wrong_ceiling(rng: &mut Rng, lines: &mut Lines) {
    let odd = rng.pick(&[0, 5001, 0x7FFF, 0x8000, 0xFFFF]);
    let ceiling = if rng.one_in(3) { odd } else { any_ceiling(rng) };
    let line = ceiling_line(ceiling).into_bytes();
    match (rng.below(4), ceiling_at(lines)) {
        (0, Some(at)) => lines[at] = line,
        (1, Some(at)) => {
            lines.remove(at);
        }
        (2, _) => lines.insert(lines.len().min(rng.pick(&[1, 1, 2])), line),
        _ => lines.insert(rng.below(lines.len() + 1), line),
    }
}

/// Parameters in range or not, in their place or out of it.
pub fn wrong_parameters(rng: &mut Rng, season: &Season, lines: &mut Lines) {
    let days = season.header.last - season.header.first + rng.pick(&[0, 0, 1, 200]);
    let own: Parameters = season.header.own.unwrap_or_else(|| any_parameters(rng, days));
    let changed = match rng.below(4) {
        0 => own,
        1 => any_parameters(rng, days),
        _ => broken(rng, &own),
    };
    misplace(rng, lines, 1, changed.line());
}

/// Warmth in range or not, in its place or out of it.
pub fn wrong_warmth(rng: &mut Rng, lines: &mut Lines) {
    let warmth = if rng.one_in(2) { any_warmth(rng, 5) } else { broken_warmth(rng) };
    misplace(rng, lines, 2, warmth.line());
}

/// A line in its place, twice, elsewhere, or in the place of another; or the one that is there lost
/// or exchanged with the next.
fn misplace(rng: &mut Rng, lines: &mut Lines, place: usize, line: String) {
    let line = line.into_bytes();
    let at = rng.below(lines.len());
    match rng.below(6) {
        0 | 1 if lines.len() > place => lines[place] = line,
        2 => lines.insert(lines.len().min(place), line),
        3 => lines.insert(at, line),
        4 if lines.len() > place + 1 => lines.swap(place, place + 1),
        5 if lines.len() > place => {
            lines.remove(place);
        }
        _ => lines[at] = line,
    }
}

/// An hour's ozone lost, under a ceiling or not; or the header's first day.
pub fn lost_ozone(rng: &mut Rng, lines: &mut Lines) {
    let at = rng.below(lines.len());
    put(&mut lines[at], 8, "FFFF");
}

pub fn wrong_count(rng: &mut Rng, lines: &mut Lines) {
    let hours = hours_in(lines);
    let count = match rng.below(4) {
        0 => hours - 1,
        1 => hours + 1,
        2 => rng.pick(&[0, 1, hours << 8, 0xFFFF]),
        _ => hours,
    };
    let end = end_line(count).into_bytes();
    if rng.one_in(2) {
        lines.pop();
        lines.push(end);
    } else {
        early_end(rng, lines);
    }
}

/// The lines that are hour frames.
fn hours_in(lines: &[Vec<u8>]) -> i64 {
    lines.iter().filter(|line| is_hour(line)).count() as i64
}

/// An end frame before the last hour, its count right for its place or not.
fn early_end(rng: &mut Rng, lines: &mut Lines) {
    let at = rng.below(lines.len());
    let count = hours_in(&lines[..at]) + rng.pick(&[0, 0, 1, -1]);
    lines.insert(at, end_line(count).into_bytes());
}

pub fn after_the_end(rng: &mut Rng, season: &Season, lines: &mut Lines) {
    let more = match rng.below(if NEWEST < PARAMETERS {
        7
    } else if NEWEST < WARMTH {
        8
    } else {
        9
    }) {
        0 => vec![],
        1 => header_line(&season.header).into_bytes(),
        2 => hour_line(season.header.last + 1, 0, &season.hours[0]).into_bytes(),
        3 => end_line(season.hours.len() as i64).into_bytes(),
        4 => b" ".to_vec(),
        5 => ceiling_line(any_ceiling(rng)).into_bytes(),
        7 => any_parameters(rng, 0).line().into_bytes(),
        8 => any_warmth(rng, 0).line().into_bytes(),
        _ => lines[rng.below(lines.len())].clone(),
    };
    lines.push(more);
}

/// One to three fields of the header at a corner or one past it; the hours are left as they were.
pub fn damaged_header(rng: &mut Rng, season: &Season) -> Lines {
    let mut header = season.header;
    for _ in 0..rng.pick(&[1, 1, 2, 3]) {
        change_field(rng, &mut header);
    }
    let mut lines = season.lines();
    lines[0] = header_line(&header).into_bytes();
    lines
}

fn change_field(rng: &mut Rng, header: &mut Header) {
    match rng.below(8) {
        0 => header.tree = rng.pick(&[0, 1, 2, 3, 4, 5, 6, 7, 8, 16, 128, 255]),
        1 => header.days = rng.pick(&[0, 1, 364, 365, 366, 367, 0x6D01, 0xFFFF]),
        2 => header.first = rng.pick(&[0, 1, header.last, header.last + 1, 365, 366, 367, 0xFFFF]),
        3 => {
            header.last =
                rng.pick(&[0, 1, header.first - 1, header.first, 365, 366, 367, 0xFFFF]).max(0)
        }
        4 | 5 => header.last = shortest_last(header) + rng.between(-1, 1),
        _ => header.level = rng.pick(&[0, 1, 2, 9999, 10000, 10001, 0x8000, 0xFFFF]),
    }
}

/// The earliest last day that the tree's ramps allow.
fn shortest_last(header: &Header) -> i64 {
    if header.first < 400 {
        header.first + header.fewest_days() - 1
    } else {
        1
    }
}

// ---- bytes

/// A text cut at both ends, or at one.
pub fn cut(rng: &mut Rng, mut text: Vec<u8>) -> Vec<u8> {
    if rng.one_in(4) {
        text.drain(..rng.below(text.len().min(100)));
    }
    let from_end =
        if rng.one_in(2) { rng.below(text.len() + 1) } else { rng.below(text.len().min(80)) };
    text.truncate(text.len() - from_end);
    text
}

/// A few bytes changed, lost or put in.
pub fn disturb(rng: &mut Rng, mut text: Vec<u8>) -> Vec<u8> {
    if rng.one_in(20) {
        return with_carriage_returns(&text);
    }
    for _ in 0..rng.between(1, 3) {
        let at = rng.below(text.len());
        let byte = if rng.one_in(2) { rng.pick(b"\n\r 0F\0") } else { rng.below(256) as u8 };
        match rng.below(4) {
            0 => text[at] = byte,
            1 => text.insert(at, byte),
            2 => text[at] = any_digit(rng),
            _ => {
                text.remove(at);
            }
        }
    }
    text
}

fn with_carriage_returns(text: &[u8]) -> Vec<u8> {
    let mut with = Vec::new();
    for &byte in text {
        if byte == b'\n' {
            with.push(b'\r');
        }
        with.push(byte);
    }
    with
}

/// Bytes, digits or frames without a season.
pub fn noise(rng: &mut Rng) -> Vec<u8> {
    let size = rng.pick(&[0, 1, 2, 6, 7, 20, 36, 37, 200, 2000]);
    match rng.below(3) {
        0 => (0..size).map(|_| rng.below(256) as u8).collect(),
        1 => (0..size).map(|_| rng.pick(b"0123456789ABCDEF\n\n")).collect(),
        _ => {
            let lines = (0..rng.between(0, 6)).map(|_| frame_noise(rng)).collect();
            text(rng, &lines)
        }
    }
}

/// A line of a frame's length, mostly of its kind.
fn frame_noise(rng: &mut Rng) -> Vec<u8> {
    let (kind, length) = rng.pick(&frames(NEWEST));
    let mut line: Vec<u8> = (0..length).map(|_| any_digit(rng)).collect();
    if !rng.one_in(5) {
        put(&mut line, 0, &format!("{kind:02X}"));
    }
    if kind == 1 && rng.one_in(2) {
        let number = any_tree(rng);
        line = header_line(&short_period(rng, number)).into_bytes();
    }
    line
}

//! Cases that go through a list in turn, so that none of it is left to chance: few lines each, the
//! rest of them by chance.

use crate::account::Header;
use crate::calendar::last_day;
use crate::damage::{put, text, Lines};
use crate::frames::*;
use crate::parameters::*;
use crate::rng::Rng;
use crate::season::*;
use crate::warmth::*;

/// A header and its first hours, of any kind.
fn opening(rng: &mut Rng, number: i64) -> (Season, Lines) {
    let kind = any_kind(rng);
    opening_in(rng, kind, number)
}

/// A header and its first hours, in plausible weather or at corners.
fn opening_in(rng: &mut Rng, kind: i64, number: i64) -> (Season, Lines) {
    let header = short_period(rng, number);
    let mut season = plausible_in(rng, kind, Header { last: header.first, ..header });
    season.header = header;
    if rng.one_in(2) {
        let of = header.of();
        season.hours.iter_mut().for_each(|readings| put_to_corners(rng, &of, readings));
    }
    let mut lines = season.lines();
    lines.truncate(season.line_of(rng.pick(&[1, 1, 2, 24])));
    (season, lines)
}

/// Every byte somewhere in a line.
pub fn every_byte(rng: &mut Rng, turn: u64) -> Vec<u8> {
    let number = any_tree(rng);
    let (_, mut lines) = opening(rng, number);
    lines.push(end_line(24).into_bytes());
    let at = rng.below(lines.len());
    let place = rng.below(lines[at].len());
    lines[at][place] = turn as u8;
    text(rng, &lines)
}

/// Every length from 0 to 80, with a kind's number or not.
pub fn every_length(rng: &mut Rng, turn: u64) -> Vec<u8> {
    let number = any_tree(rng);
    let (_, mut lines) = opening(rng, number);
    let mut line = vec![b'0'; (turn % 81) as usize];
    let kinds = (1..=NEWEST).map(|kind| format!("{kind:02X}"));
    let starts: Vec<String> = kinds.chain(["00", "G0"].map(String::from)).collect();
    let start = &starts[rng.below(starts.len())];
    put(&mut line, 0, start);
    lines.insert(rng.below(lines.len() + 1), line);
    text(rng, &lines)
}

/// Every kind's number on a line of a right length.
pub fn every_kind(rng: &mut Rng, turn: u64) -> Vec<u8> {
    let number = any_tree(rng);
    let (_, mut lines) = opening(rng, number);
    lines.push(end_line(24).into_bytes());
    let at = rng.pick(&[0, 1, lines.len() - 1]);
    put(&mut lines[at], 0, &format!("{:02X}", turn as u8));
    text(rng, &lines)
}

/// Every reading of every kind and tree at both ends of its range and one past them.
pub fn every_reading(rng: &mut Rng, turn: u64) -> Vec<u8> {
    let (number, turn) = ((turn % TREES + 1) as i64, (turn / TREES) as usize);
    let (kind, turn) = (HOUR_KINDS[turn % HOUR_KINDS.len()], turn / HOUR_KINDS.len());
    let (reading, place) = (turn % readings_of(kind), turn / readings_of(kind) % 4);
    let (least, most) = range(number, kind, reading);
    let (mut season, mut lines) = opening_in(rng, kind, number);
    season.hours[0][reading] = [least, most, least - 1, most + 1][place];
    lines[season.line_of(0)] = hour_line(season.header.first, 0, &season.hours[0]).into_bytes();
    text(rng, &lines)
}

/// Every field of every tree's header at its corners and one past them.
pub fn every_field(rng: &mut Rng, turn: u64) -> Vec<u8> {
    let number = turn % TREES + 1;
    let (season, mut lines) = opening(rng, number as i64);
    let header = changed(&season.header, turn / TREES);
    lines[0] = header_line(&header).into_bytes();
    lines[season.line_of(0)] = hour_line(header.first, 0, &season.hours[0]).into_bytes();
    text(rng, &lines)
}

fn changed(header: &Header, turn: u64) -> Header {
    let mut new = *header;
    let fewest = header.fewest_days();
    match turn % 28 {
        0 => new.tree = 0,
        1 => new.tree = 8,
        2 => new.tree = 255,
        3 => new.tree += 128,
        4 => new.days = 364,
        5 => new.days = 367,
        6 => new.days = 0xFFFF,
        7 => (new.first, new.last) = (0, fewest - 1),
        8 => (new.first, new.last) = (1, fewest),
        9 => (new.first, new.last) = (1, fewest - 1),
        10 => new.last = new.first + fewest - 2,
        11 => new.last = new.first - 1,
        12 => (new.first, new.last) = (new.last, new.first - 1),
        13 => (new.days, new.first, new.last) = (365, 1, 365),
        14 => (new.days, new.first, new.last) = (365, 1, 366),
        15 => (new.days, new.first, new.last) = (366, 1, 366),
        16 => (new.days, new.first, new.last) = (366, 1, 367),
        17 => (new.first, new.last) = (0xFFFF, 0xFFFF),
        18 => new.level = 0,
        19 => new.level = 1,
        20 => new.level = 10000,
        21 => new.level = 10001,
        22 => new.level = 0xFFFF,
        // two faults: the first row is given
        23 => (new.tree, new.days) = (8, 364),
        24 => (new.tree, new.first) = (0, 0),
        25 => (new.days, new.first) = (367, 0),
        26 => new.tree = 7,
        _ => (new.first, new.level) = (0, 0),
    }
    new
}

/// Tmin, Topt, Tmax and their neighbours of every tree in one lit hour, the other readings such
/// that the leaf takes up ozone.
pub fn every_temperature(rng: &mut Rng, turn: u64) -> Vec<u8> {
    let number = (turn % TREES + 1) as i64;
    let header = short_period(rng, number);
    let mut season = plausible(rng, header);
    let day = rng.between(header.first, header.last);
    few_lit(rng, &mut season, &[day]);
    let (of_three, off) = (turn / TREES % 3, (turn / TREES / 3 % 3) as i64 - 1);
    let temperature = (header.of().temperature[of_three as usize] + off).min(600);
    for readings in season.hours.iter_mut().filter(|readings| readings.is_counted()) {
        readings[TEMPERATURE] = temperature;
        readings[OZONE] = rng.between(2000, 5000); // above 1 nmol m⁻² s⁻¹ even at f_min
        readings[PPFD] = rng.between(300, 3000);
    }
    text(rng, &season.lines())
}

/// The days at which the evergreen's dip bends, and days between.
pub fn every_bend(rng: &mut Rng, turn: u64) -> Vec<u8> {
    const BENDS: [i64; 15] =
        [79, 80, 81, 82, 145, 209, 210, 211, 259, 260, 261, 290, 319, 320, 321];
    let bend = BENDS[(turn % 15) as usize];
    let mut header = short_period(rng, 6);
    header.first = bend - rng.between(0, 1);
    header.last = bend + rng.between(0, 1);
    let mut season = plausible(rng, header);
    few_lit(rng, &mut season, &[bend]);
    text(rng, &season.lines())
}

/// The days at which a ramp starts or ends, and their neighbours, of every tree with ramps.
pub fn every_ramp(rng: &mut Rng, turn: u64) -> Vec<u8> {
    let with_ramps: &[i64] =
        if NEWEST < PARAMETERS { &[1, 2, 4, 5] } else { &[1, 2, 4, 5, MEASURED] };
    let (number, turn) =
        (with_ramps[turn as usize % with_ramps.len()], turn / with_ramps.len() as u64);
    let header =
        if number == MEASURED { period(rng, number, 30) } else { short_period(rng, number) };
    let mut season = plausible(rng, header);
    let ramps = header.of().ramps;
    let bends = [header.first, header.first + ramps[0], header.last - ramps[1], header.last];
    let day = bends[(turn % 4) as usize] + (turn / 4 % 3) as i64 - 1;
    few_lit(rng, &mut season, &[day.clamp(header.first, header.last)]);
    text(rng, &season.lines())
}

/// The border of every month in both years: periods that end at it, begin at it or pass it.
pub fn every_border(rng: &mut Rng, turn: u64) -> Vec<u8> {
    let days = 365 + (turn % 2) as i64;
    let border = last_day(days, (turn / 2 % 12 + 1) as i64);
    let tree = any_short_tree(rng);
    let first = border + rng.between(-2, 1);
    let last = first + rng.between(0, 3);
    let header = Header {
        tree,
        days,
        first: first.min(days),
        last: last.min(days),
        level: any_level(rng),
        own: None,
        warmth: None,
    };
    let header = with_own(rng, header);
    let mut season = plausible(rng, header);
    let days = [border, border + 1].map(|day| day.clamp(header.first, header.last));
    few_lit(rng, &mut season, &days);
    text(rng, &season.lines())
}

/// Every hour kind after every other, alone and with another fault: rows 2 and 4 come before row
/// 15, rows 9 and 10 after it.
pub fn every_mixture(rng: &mut Rng, turn: u64) -> Vec<u8> {
    let all = HOUR_KINDS.iter().flat_map(|&own| HOUR_KINDS.iter().map(move |&other| (own, other)));
    let pairs: Vec<(i64, i64)> = all.filter(|(own, other)| own != other).collect();
    let (own, other) = pairs[turn as usize % pairs.len()];
    let number = any_short_tree(rng);
    let header = short_period(rng, number);
    let season = plausible_in(rng, own, header);
    let mut lines = season.lines();
    let fault = turn as usize / pairs.len() % 10;
    // faults 0 to 4 in an hour after the first, 5 and 6 in the first, the others out of turn
    let n = if fault < 5 { 1 + rng.below(season.hours.len() - 1) } else { 0 };
    let line = faulty(&season, n, other, fault);
    match fault {
        7 => lines.insert(0, line),
        8 => lines.insert(lines.len() - 1, line),
        9 => lines.push(line),
        _ => lines[season.line_of(n)] = line,
    }
    text(rng, &lines)
}

/// The season's n-th hour in another kind, with one of the faults that an hour's line itself can
/// have, or with none.
fn faulty(season: &Season, n: usize, kind: i64, fault: usize) -> Vec<u8> {
    let (day, mut hour) = (season.day(n), n as i64 % 24);
    let mut readings = season.hours[n].as_kind(season.header.tree, kind);
    let mut past = |reading| readings[reading] = range(season.header.tree, kind, reading).1 + 1;
    match fault {
        1 => hour += 1,
        2 | 6 => past(OZONE),
        3 => past(readings_of(kind) - 1),
        _ => {}
    }
    let mut line = hour_line(day, hour, &readings).into_bytes();
    if fault == 4 {
        line[10] = b'g';
    }
    line
}

/// Every tenth of a degree in hours of kind 05, with a humidity at which the deficit lies between
/// the tree's two edges, where one does.
pub fn every_tenth(rng: &mut Rng, turn: u64) -> Vec<u8> {
    let temperature = (turn % 1101) as i64 - 500;
    let some = rng.pick(&[1, 2, 3, 6]);
    let number = if NEWEST >= PARAMETERS && rng.one_in(3) { MEASURED } else { some };
    let header = short_period(rng, number);
    let mut season = plausible_in(rng, 5, header);
    let day = rng.between(header.first, header.last);
    few_lit(rng, &mut season, &[day]);
    let of = header.of();
    let [best, worst] = of.vpd;
    for readings in season.hours.iter_mut().filter(|readings| readings.is_counted()) {
        readings[TEMPERATURE] = temperature;
        readings[HUMIDITY] = humidity(temperature, rng.between(best, worst) as f64).max(0);
        readings[OZONE] = rng.between(2000, 5000);
        readings[SOIL] = of.soil[0];
    }
    text(rng, &season.lines())
}

/// A season of the trees that need no ramps, all its ozone read and no ceiling.
fn whole_ozone(rng: &mut Rng) -> Season {
    let number = any_short_tree(rng);
    let header = short_period(rng, number);
    let mut season = plausible(rng, header);
    season.ceiling = 0;
    season.hours.iter_mut().for_each(|readings| *readings = readings.filled(700));
    season
}

/// Every ceiling at the ends of its range and past them, in its place with no, some and all ozone
/// missing, and in every other place: row 4 comes before row 17.
pub fn every_ceiling(rng: &mut Rng, turn: u64) -> Vec<u8> {
    const CEILINGS: [i64; 14] =
        [0, 1, 2, 399, 400, 401, 4999, 5000, 5001, 5002, 0x7FFF, 0x8000, 0xFFFE, 0xFFFF];
    let ceiling = CEILINGS[turn as usize % CEILINGS.len()];
    let mut season = whole_ozone(rng);
    let place = turn as usize / CEILINGS.len() % 10;
    match place {
        0..3 => {
            lose_ozone(rng, &mut season);
            season.ceiling = 0; // the line is put in below
        }
        3 | 4 => season.ceiling = any_ceiling(rng), // a second ceiling follows
        _ => {}
    }
    let mut lines = season.lines();
    let end = lines.len() - 1;
    let own = season.header.own.is_some() as usize;
    let at = match place {
        0..=3 => season.ceiling_place(),
        4 => rng.between(2, lines.len() as i64) as usize,
        5 => 0,
        6 => 2 - own, // before the parameters, where there are any
        7 => rng.between(2, end as i64) as usize,
        8 => end,
        _ => end + 1,
    };
    lines.insert(at, ceiling_line(ceiling).into_bytes());
    text(rng, &lines)
}

/// Ozone FFFF in the first, the last or any hour, under a ceiling and without one, alone and with
/// another fault: rows 2, 15 and 9 come before row 18, row 10 after it.
pub fn every_gap(rng: &mut Rng, turn: u64) -> Vec<u8> {
    let mut season = whole_ozone(rng);
    if turn % 2 == 0 {
        season.ceiling = any_ceiling(rng);
    }
    let last = season.hours.len() - 1;
    let n = [0, rng.below(last + 1), last][turn as usize / 2 % 3];
    if rng.one_in(2) {
        light_up(rng, &mut season.hours[n]);
    }
    season.hours[n][OZONE] = MISSING;
    let mut lines = season.lines();
    let at = season.line_of(n);
    match turn as usize / 6 % 12 {
        0 => {}
        1 => put(&mut lines[at], 6, "FF"),
        2 => put(&mut lines[at], 8, "FFFE"),
        3 => put(&mut lines[at], 8, "7FFF"),
        4 => put(&mut lines[at], 8, "FFFG"),
        5 => put(&mut lines[at], 8, "fFFF"),
        // PPFD, radiation, temperature (-0.1 degrees), VPD; then wind and soil
        fault @ 6..=9 => put(&mut lines[at], 8 + 4 * (fault - 5), "FFFF"),
        10 => put(&mut lines[at], 28, "FFFFFFFF"),
        _ => lines[at] = faulty(&season, n, other_than(season.kind()), 0),
    }
    text(rng, &lines)
}

/// Another hour kind.
fn other_than(kind: i64) -> i64 {
    HOUR_KINDS.iter().copied().find(|&other| other != kind).unwrap_or(kind)
}

/// Every parameter at both ends of its range and one past them, or where two bytes end: rows 24 and
/// 7.
pub fn every_parameter(rng: &mut Rng, turn: u64) -> Vec<u8> {
    let (at, place) = (turn as usize % 16, turn as usize / 16 % 6);
    let (least, most) = RANGES[at];
    let header = short_period(rng, MEASURED);
    let mut season = plausible(rng, header);
    if let Some(own) = &mut season.header.own {
        own.numbers[at] = [least, most, least - 1, most + 1, 0x7FFF, 0x8000][place];
        make_room(&mut own.numbers, at);
    }
    few_lit(rng, &mut season, &[header.first, header.last]);
    text(rng, &season.lines())
}

/// Moves the other numbers of a rising pair or three so that they rise with one of them, where they
/// can.
fn make_room(numbers: &mut [i64; 16], at: usize) {
    let n = numbers[at];
    match at {
        TMIN => (numbers[TOPT], numbers[TMAX]) = (n + 1, n + 2),
        TOPT => (numbers[TMIN], numbers[TMAX]) = (n - 1, n + 1),
        TMAX => (numbers[TMIN], numbers[TOPT]) = (n - 2, n - 1),
        VPD_MAX | SOIL_MAX => numbers[at + 1] = n + 1,
        _ if at == VPD_MAX + 1 || at == SOIL_MAX + 1 => numbers[at - 1] = n - 1,
        _ => {}
    }
}

/// Parameters in every place, sound, broken or with ramps too long, once and twice, with a ceiling
/// and without; for tree 7 and for others: row 4 comes before rows 24 and 7.
pub fn every_place(rng: &mut Rng, turn: u64) -> Vec<u8> {
    let number = [MEASURED, MEASURED, 3, 6][turn as usize % 4];
    let header = short_period(rng, number);
    let days = header.last - header.first;
    let sound = header.own.unwrap_or_else(|| any_parameters(rng, days));
    let mut long = sound;
    long.numbers[F1] = days + 1 - long.numbers[F4];
    let parameters = [sound, broken(rng, &sound), long][turn as usize / 4 % 3];
    let mut season = plausible(rng, header);
    if turn / 12 % 2 == 0 {
        season.header.own = None; // those put in below are the only ones
    }
    let mut lines = season.lines();
    let end = lines.len() - 1;
    let places = [0, 1, 2, 3, rng.below(end), end, end + 1];
    lines.insert(places[turn as usize / 24 % places.len()], parameters.line().into_bytes());
    text(rng, &lines)
}

/// Every edge of row 25, in its place and in every other: row 4 comes before row 25, and a ceiling
/// or an hour before warmth is row 4.
pub fn every_warmth(rng: &mut Rng, turn: u64) -> Vec<u8> {
    const WARMTHS: [[i64; 3]; 20] = [
        [200, 300, 1500],
        [0, 0, 0],
        [0, 0, 1],
        [1, 0, 1],
        [0, 1, 1],
        [1, 1, 1],
        [0, 0, 5000],
        [0, 0, 5001],
        [2500, 2500, 5000],
        [2500, 2501, 5000],
        [2501, 2500, 5000],
        [5000, 0, 5000],
        [0, 5000, 5000],
        [5001, 0, 5000],
        [0, 5001, 5000],
        [0x8000, 0x8000, 1],
        [0xFFFF, 1, 5000],
        [1, 0xFFFF, 5000],
        [0xFFFF, 0xFFFF, 0xFFFF],
        [1, 0, 0],
    ];
    let [rise, fall, end] = WARMTHS[turn as usize % WARMTHS.len()];
    let place = turn as usize / WARMTHS.len() % 8;
    let number = if place == 7 { rng.pick(&[3, 6]) } else { MEASURED };
    let header = short_period(rng, number);
    let warmth = (place == 3).then(|| any_warmth(rng, 3)); // a second one follows
    let season = plausible(rng, Header { warmth, ..header });
    let mut lines = season.lines();
    let last = lines.len() - 1;
    let at =
        [2, 2, 2, 3, season.line_of(0), season.line_of(1), rng.pick(&[0, 1, last, last + 1]), 1]
            [place];
    lines.insert(at, Warmth { rise, fall, end }.line().into_bytes());
    text(rng, &lines)
}

/// The sums at which f_phen bends and a tenth of a degree on either side of them, in one lit day; a
/// day of frost before it now and then.
pub fn every_sum(rng: &mut Rng, turn: u64) -> Vec<u8> {
    let length = rng.between(2, 5);
    let header = period(rng, MEASURED, length);
    let mut season = plausible(rng, header);
    let degrees = rng.pick(&[1, 2, 10, 33, 59]);
    let lit = rng.between(1, length - 1);
    season.hours.iter_mut().for_each(|readings| readings[TEMPERATURE] = 10 * degrees);
    if lit > 1 && rng.one_in(3) {
        season.hours[..24].iter_mut().for_each(|readings| readings[TEMPERATURE] = -1);
        // the first day adds nothing
    }
    few_lit(rng, &mut season, &[header.first + lit]);
    let reached = season.sums()[lit as usize] / DEGREE_DAY;
    let other = rng.between(0, reached);
    let more = rng.between(0, 50);
    let [rise, fall, end] = match turn % 5 {
        0 => [reached, more, reached + more],
        1 => [other, more, reached + more],
        2 => [other, reached - other, reached],
        3 => [other, 0, reached],
        _ => [other, reached - other, reached + more],
    };
    season.header.warmth = Some(Warmth { rise, fall, end });
    let off = (turn / 5 % 3) as i64 - 1;
    season.hours[24 * lit as usize - 1][TEMPERATURE] += off;
    text(rng, &season.lines())
}

//! A season of hours and its text.

use crate::account::Header;
use crate::dose::saturation;
use crate::frames::*;
use crate::parameters::{any_parameters, MEASURED, PARAMETERS};
use crate::rng::Rng;
use crate::trees::{tree, Tree};
use crate::warmth::{any_warmth, WARMTH};

pub struct Season {
    pub header: Header,
    /// 0 where there is none.
    pub ceiling: i64,
    pub hours: Vec<Readings>,
}

pub fn header_line(header: &Header) -> String {
    let Header { tree, days, first, last, level, .. } = *header;
    let numbers: String = [days, first, last, level].map(pair).concat();
    format!("01{tree:02X}{numbers}")
}

/// Two bytes of any number, two's complement below 0.
pub fn pair(number: i64) -> String {
    format!("{:04X}", number & 0xFFFF)
}

pub fn hour_line(day: i64, hour: i64, readings: &Readings) -> String {
    let kind = readings.kind;
    let readings: String = readings.sent().iter().map(|&reading| pair(reading)).collect();
    format!("{kind:02X}{day:04X}{hour:02X}{readings}")
}

pub fn end_line(count: i64) -> String {
    format!("03{}", pair(count))
}

pub fn ceiling_line(ozone: i64) -> String {
    format!("{CEILING:02X}{}", pair(ozone))
}

impl Season {
    /// Of the first hour, which is that of a whole season.
    pub fn kind(&self) -> i64 {
        self.hours[0].kind
    }

    pub fn day(&self, n: usize) -> i64 {
        self.header.first + n as i64 / 24
    }

    /// The place of a ceiling among the lines.
    pub fn ceiling_place(&self) -> usize {
        1 + self.header.own.is_some() as usize + self.header.warmth.is_some() as usize
    }

    /// The place of an hour among the lines.
    pub fn line_of(&self, n: usize) -> usize {
        n + self.ceiling_place() + (self.ceiling > 0) as usize
    }

    pub fn lines(&self) -> Vec<Vec<u8>> {
        let mut lines = vec![header_line(&self.header)];
        lines.extend(self.header.own.map(|own| own.line()));
        lines.extend(self.header.warmth.map(|warmth| warmth.line()));
        if self.ceiling > 0 {
            lines.push(ceiling_line(self.ceiling));
        }
        for (n, readings) in self.hours.iter().enumerate() {
            lines.push(hour_line(self.day(n), n as i64 % 24, readings));
        }
        lines.push(end_line(self.hours.len() as i64));
        lines.into_iter().map(String::into_bytes).collect()
    }

    /// The temperature sum before each day, in tenths of a degree over hours.
    pub fn sums(&self) -> Vec<i64> {
        let totals = self
            .hours
            .chunks(24)
            .map(|day| day.iter().map(|readings| readings[TEMPERATURE]).sum::<i64>().max(0));
        let after = totals.scan(0, |sum, total| {
            *sum += total;
            Some(*sum)
        });
        std::iter::once(0).chain(after).collect()
    }

    /// What an hour adds to the dose, a missing ozone read as a number; with the season's sums.
    fn dose_of(&self, n: usize, readings: &Readings, missing: i64, sums: &[i64]) -> f64 {
        if readings.is_counted() {
            self.header.dose(self.day(n), sums[n / 24], &readings.filled(missing))
        } else {
            0.0
        }
    }

    fn dose(&self, missing: i64, sums: &[i64]) -> f64 {
        self.hours
            .iter()
            .enumerate()
            .map(|(n, readings)| self.dose_of(n, readings, missing, sums))
            .sum()
    }
}

// ---- kinds

/// One of the hour kinds; nothing is drawn where there is one only.
pub fn any_kind(rng: &mut Rng) -> i64 {
    if HOUR_KINDS.len() == 1 {
        HOUR_KINDS[0]
    } else {
        rng.pick(HOUR_KINDS)
    }
}

// ---- periods

/// The trees that are known.
pub const TREES: u64 = if NEWEST < PARAMETERS { 6 } else { 7 };

/// A tree; those without ramps, whose seasons may be short, more often.
pub fn any_tree(rng: &mut Rng) -> i64 {
    let any = rng.pick(&[1, 2, 3, 3, 3, 3, 4, 5, 6, 6, 6, 6]);
    if NEWEST >= PARAMETERS && rng.one_in(4) {
        MEASURED
    } else {
        any
    }
}

/// A tree that needs no ramps.
pub fn any_short_tree(rng: &mut Rng) -> i64 {
    if NEWEST < PARAMETERS {
        rng.pick(&[3, 6])
    } else {
        rng.pick(&[3, 6, MEASURED])
    }
}

pub fn any_level(rng: &mut Rng) -> i64 {
    match rng.below(4) {
        0 => rng.pick(&[1, 2, 9999, 10000]),
        1 => rng.between(1, 10000),
        2 => rng.between(1, 60),
        _ => 520,
    }
}

/// A period of so many days, at an end of the year now and then.
pub fn period(rng: &mut Rng, tree: i64, length: i64) -> Header {
    let days = rng.between(365, 366);
    let latest = days - length + 1;
    let first = if rng.one_in(6) { rng.pick(&[1, latest]) } else { rng.between(1, latest) };
    let header = Header {
        tree,
        days,
        first,
        last: first + length - 1,
        level: any_level(rng),
        own: None,
        warmth: None,
    };
    with_own(rng, header)
}

/// The header of tree 7 with parameters whose ramps fit the period, now and then with warmth.
pub fn with_own(rng: &mut Rng, mut header: Header) -> Header {
    if header.tree == MEASURED {
        header.own = Some(any_parameters(rng, header.last - header.first));
        if NEWEST >= WARMTH && rng.one_in(3) {
            header.warmth = Some(any_warmth(rng, header.last - header.first));
        }
    }
    header
}

/// As short as the tree allows, or a day or two more.
pub fn short_period(rng: &mut Rng, number: i64) -> Header {
    let more = rng.pick(&[0, 0, 0, 1, 2]);
    let fewest =
        if number == MEASURED { rng.pick(&[1, 1, 1, 2, 6]) } else { tree(number).fewest_days() };
    period(rng, number, fewest + more)
}

// ---- weather

/// What stays over a season.
struct Climate {
    warmth: f64,
    clouds: f64,
    ozone: f64,
    wind: f64,
    dryness: f64,
}

fn climate(rng: &mut Rng, of: &Tree) -> Climate {
    let warmth = [9.0, 11.0, 13.0, 14.0, 16.0, 19.0]
        .get(of.number as usize - 1)
        .copied()
        .unwrap_or((of.temperature[1] / 10) as f64);
    Climate {
        warmth: warmth + 6.0 * rng.unit() - 3.0,
        clouds: 0.2 + 0.8 * rng.unit(),
        ozone: 250.0 + 400.0 * rng.unit(),
        wind: 80.0 + 400.0 * rng.unit(),
        dryness: rng.unit(),
    }
}

/// The sun's height from 0 to 1, by hour and day of the year.
fn sun(day: i64, hour: i64) -> f64 {
    let summer = -(std::f64::consts::TAU * (day + 10) as f64 / 365.0).cos();
    let half = 6.0 + 2.0 * summer; // hours from noon to sunset
    let from_noon = hour as f64 - 12.0;
    let height = (std::f64::consts::FRAC_PI_2 * from_noon / half).cos();
    if from_noon.abs() < half {
        height * (0.7 + 0.3 * summer)
    } else {
        0.0
    }
}

/// Tenths of hPa: the colder, the higher up, with a slow swing.
fn pressure(climate: &Climate, day: i64) -> f64 {
    10000.0 - 200.0 * (22.0 - climate.warmth) + 120.0 * (day as f64 / 3.0).sin()
}

fn weather(
    rng: &mut Rng,
    kind: i64,
    climate: &Climate,
    of: &Tree,
    day: i64,
    hour: i64,
) -> Readings {
    let sun = sun(day, hour);
    let light = sun * climate.clouds * (0.7 + 0.3 * rng.unit());
    let summer = -(std::f64::consts::TAU * (day - 20) as f64 / 365.0).cos();
    let degrees = climate.warmth + 7.0 * summer + 8.0 * (sun - 0.4) + 2.0 * rng.unit();
    let dryness = 0.15 + 0.6 * light + 0.2 * climate.dryness;
    let moisture = if kind == 5 { 1000.0 * (1.0 - dryness) } else { saturation(degrees) * dryness };
    let ozone = climate.ozone * (0.6 + 0.7 * sun + 0.1 * rng.unit());
    let wind = climate.wind * (0.3 + sun + rng.unit());
    let edges = of.soil;
    let soil = edges[0] as f64
        + (edges[1] - edges[0]) as f64 * (1.4 * climate.dryness - 0.3 + 0.05 * rng.unit());
    let exact = [
        ozone,
        2000.0 * light,
        1000.0 * light,
        10.0 * degrees,
        moisture,
        wind,
        soil,
        pressure(climate, day),
    ];
    Readings { kind, values: exact.map(|value| value.round() as i64) }.as_kind(of.number, kind)
}

/// Plausible weather over a period, in hours of any kind.
pub fn plausible(rng: &mut Rng, header: Header) -> Season {
    let kind = any_kind(rng);
    plausible_in(rng, kind, header)
}

/// The same in hours of the kind, now and then with a ceiling.
pub fn plausible_in(rng: &mut Rng, kind: i64, header: Header) -> Season {
    let of = header.of();
    let climate = climate(rng, &of);
    let hours = (0..header.hours())
        .map(|n| weather(rng, kind, &climate, &of, header.first + n / 24, n % 24))
        .collect();
    let mut season = Season { header, ceiling: 0, hours };
    if NEWEST >= CEILING && rng.one_in(3) {
        lose_ozone(rng, &mut season);
    }
    season
}

// ---- hours without ozone

/// A ceiling, and ozone missing in none of the hours, in few, in half of them or in all.
pub fn lose_ozone(rng: &mut Rng, season: &mut Season) {
    season.ceiling = any_ceiling(rng);
    let every = rng.pick(&[0, 40, 2, 2, 1]);
    for readings in &mut season.hours {
        if every > 0 && rng.one_in(every) {
            readings[OZONE] = MISSING;
        }
    }
}

pub fn any_ceiling(rng: &mut Rng) -> i64 {
    let any = rng.between(1, 5000);
    rng.pick(&[1, 2, 399, 400, 401, 700, 4999, 5000, any, any])
}

// ---- corners

/// The values around which one of an hour's readings changes its meaning.
fn edges(of: &Tree, readings: &Readings, reading: usize) -> Vec<i64> {
    match reading {
        OZONE => vec![400],
        RADIATION => vec![50],
        TEMPERATURE => of.temperature.iter().copied().chain([0]).collect(),
        HUMIDITY if readings.kind == 5 => {
            of.vpd.map(|pascal| humidity(readings[TEMPERATURE], pascal as f64)).to_vec()
        }
        VPD => of.vpd.to_vec(),
        WIND => vec![10],
        SOIL => of.soil.to_vec(),
        _ => vec![],
    }
}

/// The humidity, in tenths of a percent, at which the deficit is so many Pa: below 0 where it never
/// is.
pub fn humidity(temperature: i64, pascal: f64) -> i64 {
    (1000.0 * (1.0 - pascal / saturation(temperature as f64 / 10.0))).round() as i64
}

/// A value at most one from an edge or from an end of the range, within the range.
fn corner(rng: &mut Rng, of: &Tree, readings: &Readings, reading: usize) -> i64 {
    let (least, most) = range(of.number, readings.kind, reading);
    let edges = edges(of, readings, reading);
    if edges.is_empty() || rng.one_in(2) {
        return rng.pick(&[least, least + 1, most - 1, most]);
    }
    (rng.pick(&edges) + rng.between(-1, 1)).clamp(least, most)
}

/// Some of an hour's readings put to corners; a missing ozone stays missing.
pub fn put_to_corners(rng: &mut Rng, of: &Tree, readings: &mut Readings) {
    let often = rng.between(2, 7) as usize;
    for reading in readings.lacks_ozone() as usize..readings_of(readings.kind) {
        if rng.one_in(often) {
            readings[reading] = corner(rng, of, readings, reading);
        }
    }
}

/// Light and ozone enough that the hour adds to the dose, unless another reading stops it; a
/// missing ozone stays missing.
pub fn light_up(rng: &mut Rng, readings: &mut Readings) {
    if !readings.lacks_ozone() {
        readings[OZONE] = rng.between(300, 5000);
    }
    readings[PPFD] = rng.between(100, 3000);
    readings[RADIATION] = if rng.one_in(3) { 51 } else { rng.between(51, 1500) };
}

/// Every hour dark, though ozone and PPFD may be high, but for a few of the days given.
pub fn few_lit(rng: &mut Rng, season: &mut Season, days: &[i64]) {
    for readings in &mut season.hours {
        readings[RADIATION] = if rng.one_in(4) { 50 } else { rng.between(0, 50) };
    }
    for _ in 0..rng.between(1, 4) {
        let n = (24 * (rng.pick(days) - season.header.first) + rng.between(0, 23)) as usize;
        light_up(rng, &mut season.hours[n]);
    }
}

/// Some days so cold that their temperatures add up to less than 0, or to little more.
pub fn freeze(rng: &mut Rng, season: &mut Season) {
    let often = rng.pick(&[1, 2, 3]);
    for day in season.hours.chunks_mut(24) {
        if rng.one_in(often) {
            let middle = rng.pick(&[-500, -100, -1, 0, 0]);
            day.iter_mut().for_each(|readings| {
                readings[TEMPERATURE] = (middle + rng.between(-20, 20)).max(-500)
            });
        }
    }
}

// ---- doses near the level

/// Changes readings until the dose, with missing ozone read as 0 or as the ceiling, lies near a
/// multiple of 10000, and makes that the level.
pub fn near_level(rng: &mut Rng, season: &mut Season) {
    let nearness = rng.pick(&[0.01, 0.5, 2.0, 6.0, 50.0]);
    let missing = if season.ceiling > 0 { rng.pick(&[0, season.ceiling]) } else { 0 };
    let sums = season.sums(); // they stay as they are
    let mut dose = season.dose(missing, &sums);
    let level = ((dose / 10000.0).round() as i64).clamp(1, 10000);
    let target = level as f64 * 10000.0 + rng.between(-4, 4) as f64;
    let lit: Vec<usize> =
        (0..season.hours.len()).filter(|&n| season.hours[n].is_counted()).collect();
    for _ in 0..4000 {
        if lit.is_empty() || (dose - target).abs() < nearness {
            break;
        }
        let n = rng.pick(&lit);
        let changed = one_changed(rng, &season.header, &season.hours[n]);
        let new = dose - season.dose_of(n, &season.hours[n], missing, &sums)
            + season.dose_of(n, &changed, missing, &sums);
        if (new - target).abs() < (dose - target).abs() {
            dose = new;
            season.hours[n] = changed;
        }
    }
    season.header.level = level;
}

/// One reading moved, by little or by much, within its range; the hour stays counted, a missing
/// ozone missing, and the temperature where leaf age goes by it.
fn one_changed(rng: &mut Rng, header: &Header, readings: &Readings) -> Readings {
    let mut changed = *readings;
    let movable = [OZONE, PPFD, TEMPERATURE, VPD, WIND, SOIL, PRESSURE]; // all but radiation
    let reading =
        rng.pick(&movable[readings.lacks_ozone() as usize..readings_of(readings.kind) - 1]);
    let reading = if header.warmth.is_some() && reading == TEMPERATURE { WIND } else { reading };
    let (least, most) = range(header.tree, readings.kind, reading);
    let far = rng.pick(&[1, 3, 10, 100, 1000]);
    changed[reading] = (changed[reading] + rng.between(-far, far)).clamp(least, most);
    changed
}

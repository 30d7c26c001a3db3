//! The calls that write lines (docs/SPECIFICATION.md, "Frames" and "Dates from a place"), with
//! their numbers by chance.

use crate::account::{out_of_range, Book, Frame, Header};
use crate::accounts::held_printed;
use crate::bench::*;
use crate::frames::{range, Readings, NEWEST, OZONE, TEMPERATURE};
use crate::parameters::{any_parameters, broken, Parameters};
use crate::pod1;
use crate::pod1::archive::*;
use crate::pod1::Hour;
use crate::rng::Rng;
use crate::season::{any_ceiling, any_level, ceiling_line, end_line, header_line, hour_line};
use crate::states::any_buffer;
use crate::warmth::{any_warmth, broken_warmth, Warmth};

/// The line that must be written, or the row before row 12 that refuses it.
type Line = Result<Vec<u8>, u32>;

/// Rows 5 to 8.
fn header_written(header: Header) -> Line {
    Book::new(NEWEST).feed(Frame::Header(header))?;
    Ok(header_line(&header).into_bytes())
}

fn bare(tree: u8, days: u16, first: i64, last: i64, level: u16) -> Header {
    Header {
        tree: tree as i64,
        days: days as i64,
        first,
        last,
        level: level as i64,
        own: None,
        warmth: None,
    }
}

/// A place's header: rows 5, 6, 14, 7, 8.
fn place_written(tree: u8, days: u16, level: u16, latitude: u16, height: u16) -> Line {
    if let Err(row @ (5 | 6)) = header_written(bare(tree, days, 1, 365, 1)) {
        return Err(row);
    }
    if ![1, 2, 4, 5].contains(&tree) || !(350..=720).contains(&latitude) || height > 3000 {
        return Err(14);
    }
    let (north, height) = (latitude as i64 - 500, height as i64);
    // hundredths of a day, rounded up
    let first = (10500 + 15 * north + height + 99).div_euclid(100);
    let last = (29700 - 20 * north - height).div_euclid(100);
    header_written(bare(tree, days, first, last, level))
}

/// An hour's line in a kind, or row 10 with its field; ozone FFFF is missing.
fn hour_written(hour: &Hour, kind: i64, pressure: u16) -> Line {
    let natural =
        [hour.ozone, hour.ppfd, hour.radiation, 0, hour.vapour, hour.wind, hour.soil, pressure];
    let mut readings = Readings { kind, values: natural.map(i64::from) };
    readings[TEMPERATURE] = hour.temperature as i64;
    match out_of_range(tree_of(hour), &readings, readings.lacks_ozone()) {
        Some(field) => Err(10 + 256 * field),
        None => Ok(hour_line(hour.day as i64, hour.hour as i64, &readings).into_bytes()),
    }
}

/// A tree of the hour's soil measure.
fn tree_of(hour: &Hour) -> i64 {
    if hour.water == 0 {
        3
    } else {
        1
    }
}

/// The wrapper's parameters of numbers in the order of the frame, temperatures by their two bytes.
#[rustfmt::skip]
fn parameters_of(numbers: [u16; 16]) -> pod1::Parameters {
    let [
        gmax, fmin, lighta, tmin, topt, tmax, vpdmax, vpdmin, soilmax, soilmin, leaf, a, e, f1, f4,
        y,
    ] = numbers;
    let [tmin, topt, tmax] = [tmin, topt, tmax].map(|number| number as i16);
    pod1::Parameters {
        gmax, fmin, lighta, tmin, topt, tmax, vpdmax, vpdmin, soilmax, soilmin, leaf, a, e, f1, f4,
        y,
    }
}

/// A number of a range, now and then an end of it, one past it or where two bytes end.
fn near(rng: &mut Rng, least: i64, most: i64) -> u16 {
    let any = rng.between(least, most);
    let number =
        if rng.one_in(4) { rng.pick(&[least, most, least - 1, most + 1, 0, 0xFFFF]) } else { any };
    number as u16
}

fn any_hour(rng: &mut Rng, kind: i64) -> (Hour, u16) {
    let water = rng.pick(&[0, 0, 1, 2, 255]);
    let number = if water == 0 { 3 } else { 1 };
    let mut values = [0; 8];
    for (reading, value) in values.iter_mut().enumerate() {
        let (least, most) = range(number, kind, reading);
        *value =
            if rng.one_in(3) { near(rng, least, most) } else { rng.between(least, most) as u16 };
    }
    if rng.one_in(8) {
        values[OZONE] = 0xFFFF;
    }
    let [ozone, ppfd, radiation, temperature, vapour, wind, soil, pressure] = values;
    let (day, hour) = (rng.pick(&[0, 1, 180, 366, 0xFFFF]), rng.pick(&[0, 12, 23, 24, 255]));
    (
        Hour {
            day,
            hour,
            water,
            ozone,
            ppfd,
            radiation,
            temperature: temperature as i16,
            vapour,
            wind,
            soil,
        },
        pressure,
    )
}

impl Bench {
    /// A writer by its name and its numbers, with the line that it must write.
    fn write(
        &mut self,
        name: &'static str,
        words: String,
        line: Line,
        rng: &mut Rng,
        call: impl FnOnce(*mut u8, usize) -> Printed,
    ) -> Held<()> {
        let buffer = any_buffer(rng, line.as_ref().map_or(66, Vec::len));
        self.say(|| format!("{name}: {words} buffer {}", hex(&buffer)));
        let mut lent = self.lend(&buffer);
        let got = call(lent.pointer(), lent.length());
        self.counts.add(name, got.code);
        held_printed(line, &buffer, got, &lent)
    }

    /// One line by any writer.
    pub fn any_writer(&mut self, rng: &mut Rng) -> Held<()> {
        match rng.below(9) {
            0 => self.write_header(rng),
            1 => self.write_place(rng),
            2..=4 => self.write_hour(rng),
            5 => self.write_end(rng),
            6 => self.write_ceiling(rng),
            7 => self.write_parameters(rng),
            _ => self.write_warmth(rng),
        }
    }

    fn write_header(&mut self, rng: &mut Rng) -> Held<()> {
        let tree = rng.pick(&[0, 1, 2, 3, 4, 5, 6, 7, 3, 6, 7, 8, 255]);
        let days = near(rng, 365, 366);
        let first = near(rng, 1, 366);
        let last = (first as i64 + rng.pick(&[-1, 0, 1, 34, 35, 39, 40, 49, 50, 51])) as u16;
        let level = if rng.one_in(2) { any_level(rng) as u16 } else { near(rng, 1, 10000) };
        let line = header_written(bare(tree, days, first as i64, last as i64, level));
        let words = format!("tree {tree} days {days} first {first} last {last} level {level}");
        self.write("write header", words, line, rng, |at, length| unsafe {
            pod1_write_header(tree, days, first, last, level, at, length)
        })
    }

    fn write_place(&mut self, rng: &mut Rng) -> Held<()> {
        let tree = rng.pick(&[1, 2, 4, 5, 1, 2, 4, 5, 1, 2, 4, 5, 0, 3, 6, 7, 8, 255]);
        let (days, level) = (near(rng, 365, 366), near(rng, 1, 10000));
        let (latitude, height) = (near(rng, 350, 720), near(rng, 0, 3000));
        let line = place_written(tree, days, level, latitude, height);
        let words =
            format!("tree {tree} days {days} level {level} latitude {latitude} height {height}");
        self.write("write place", words, line, rng, |at, length| unsafe {
            pod1_write_place(tree, days, level, latitude, height, at, length)
        })
    }

    fn write_hour(&mut self, rng: &mut Rng) -> Held<()> {
        let kind = rng.pick(&[2, 4, 5]);
        let (hour, pressure) = any_hour(rng, kind);
        let line = hour_written(&hour, kind, pressure);
        let words = format!("{hour:?} pressure {pressure}");
        match kind {
            2 => self.write("write hour", words, line, rng, |at, length| unsafe {
                pod1_write_hour(hour, at, length)
            }),
            4 => self.write("write pressure", words, line, rng, |at, length| unsafe {
                pod1_write_hour_pressure(hour, pressure, at, length)
            }),
            _ => self.write("write humidity", words, line, rng, |at, length| unsafe {
                pod1_write_hour_humidity(hour, at, length)
            }),
        }
    }

    fn write_end(&mut self, rng: &mut Rng) -> Held<()> {
        let hours = near(rng, 0, 8784);
        let line = Ok(end_line(hours as i64).into_bytes());
        self.write("write end", format!("hours {hours}"), line, rng, |at, length| unsafe {
            pod1_write_end(hours, at, length)
        })
    }

    fn write_ceiling(&mut self, rng: &mut Rng) -> Held<()> {
        let ozone = if rng.one_in(2) { any_ceiling(rng) as u16 } else { near(rng, 1, 5000) };
        let line = if (1..=5000).contains(&ozone) {
            Ok(ceiling_line(ozone as i64).into_bytes())
        } else {
            Err(17)
        };
        self.write("write ceiling", format!("ozone {ozone}"), line, rng, |at, length| unsafe {
            pod1_write_ceiling(ozone, at, length)
        })
    }

    fn write_parameters(&mut self, rng: &mut Rng) -> Held<()> {
        let sound = any_parameters(rng, 400);
        let wild = broken(rng, &sound);
        let numbers = rng.pick(&[sound, wild]).numbers.map(|number| number as u16);
        let parameters = Parameters::of(numbers.map(i64::from));
        let line =
            if parameters.are_sound() { Ok(parameters.line().into_bytes()) } else { Err(24) };
        let given = parameters_of(numbers);
        self.write("write parameters", format!("{numbers:?}"), line, rng, |at, length| unsafe {
            pod1_write_parameters(given, at, length)
        })
    }

    fn write_warmth(&mut self, rng: &mut Rng) -> Held<()> {
        let sound = any_warmth(rng, 100);
        let wild = broken_warmth(rng);
        let Warmth { rise, fall, end } = rng.pick(&[sound, wild]);
        let [rise, fall, end] = [rise, fall, end].map(|number| number as u16);
        let warmth = Warmth { rise: rise as i64, fall: fall as i64, end: end as i64 };
        let line = if warmth.is_sound() { Ok(warmth.line().into_bytes()) } else { Err(25) };
        let words = format!("rise {rise} fall {fall} end {end}");
        self.write("write warmth", words, line, rng, |at, length| unsafe {
            pod1_write_warmth(rise, fall, end, at, length)
        })
    }
}

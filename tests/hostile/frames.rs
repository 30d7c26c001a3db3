//! The kinds of frames (docs/SPECIFICATION.md, "Frames") and an hour's readings.

use crate::trees::soil_most;
use std::ops::{Index, IndexMut};

/// The newest kind that the program under test knows: 3 the first three, 4 with pressure, 5 with
/// humidity, 6 the ozone ceiling, 7 a laboratory's parameters, 8 its warmth.
pub const NEWEST: i64 = 8;

/// Each kind and its digits.
const FRAMES: [(i64, usize); 8] =
    [(1, 20), (2, 36), (3, 6), (4, 40), (5, 36), (6, 6), (7, 66), (8, 14)];

/// The kinds up to the newest, with their digits.
pub fn frames(newest: i64) -> Vec<(i64, usize)> {
    FRAMES.into_iter().filter(|&(kind, _)| kind <= newest).collect()
}

/// The kinds of hour frames.
pub const HOUR_KINDS: &[i64] = match NEWEST {
    ..=3 => &[2],
    4 => &[2, 4],
    _ => &[2, 4, 5],
};

/// The kind of a ceiling frame.
pub const CEILING: i64 = 6;

pub const OZONE: usize = 0;
pub const PPFD: usize = 1;
pub const RADIATION: usize = 2;
pub const TEMPERATURE: usize = 3;
pub const VPD: usize = 4;
/// Kind 05's, where VPD stood.
pub const HUMIDITY: usize = VPD;
pub const WIND: usize = 5;
pub const SOIL: usize = 6;
/// Kind 04's.
pub const PRESSURE: usize = 7;

/// Ozone FFFF: no reading.
pub const MISSING: i64 = 0xFFFF;

/// An hour's readings in the order of its frame.
#[derive(Clone, Copy, PartialEq)]
pub struct Readings {
    pub kind: i64,
    /// The last is left out but for kind 04.
    pub values: [i64; 8],
}

impl Readings {
    /// Those that the frame has.
    pub fn sent(&self) -> &[i64] {
        &self.values[..readings_of(self.kind)]
    }

    /// The same weather in a frame of another kind: what a range of that kind leaves out is put to
    /// its end; a missing ozone stays missing.
    pub fn as_kind(&self, number: i64, kind: i64) -> Readings {
        let mut values = self.values;
        for (reading, value) in values
            .iter_mut()
            .enumerate()
            .filter(|(reading, _)| *reading != OZONE || !self.lacks_ozone())
        {
            let (least, most) = range(number, kind, reading);
            *value = (*value).clamp(least, most);
        }
        Readings { kind, values }
    }

    pub fn is_counted(&self) -> bool {
        self[RADIATION] > 50
    }

    pub fn lacks_ozone(&self) -> bool {
        self[OZONE] == MISSING
    }

    /// The same hour, a missing ozone read as a number.
    pub fn filled(&self, ozone: i64) -> Readings {
        let mut filled = *self;
        if self.lacks_ozone() {
            filled[OZONE] = ozone;
        }
        filled
    }
}

impl Index<usize> for Readings {
    type Output = i64;
    fn index(&self, reading: usize) -> &i64 {
        &self.values[reading]
    }
}

impl IndexMut<usize> for Readings {
    fn index_mut(&mut self, reading: usize) -> &mut i64 {
        &mut self.values[reading]
    }
}

/// Whether the line has the length and the kind of an hour frame, its line feed left out.
pub fn is_hour(line: &[u8]) -> bool {
    let digits = line.strip_suffix(b"\n").unwrap_or(line);
    HOUR_KINDS.iter().any(|&kind| {
        digits.len() == 8 + 4 * readings_of(kind)
            && digits.starts_with(format!("{kind:02X}").as_bytes())
    })
}

/// Where the ceiling's line stands among the first ones of a text, if there is one.
pub fn ceiling_at<L: AsRef<[u8]>>(lines: &[L]) -> Option<usize> {
    lines.iter().take(4).position(|line| line.as_ref().starts_with(b"06"))
}

/// How many readings an hour frame of a kind has.
pub fn readings_of(kind: i64) -> usize {
    if kind == 4 {
        8
    } else {
        7
    }
}

/// The least and greatest value of a reading, for a tree's number.
pub fn range(number: i64, kind: i64, reading: usize) -> (i64, i64) {
    match reading {
        OZONE => (0, 5000),
        PPFD => (0, 3000),
        RADIATION => (0, 1500),
        TEMPERATURE => (-500, 600),
        HUMIDITY if kind == 5 => (0, 1000),
        VPD => (0, 10000),
        WIND => (0, 6000),
        SOIL => (0, soil_most(number)),
        _ => (5000, 11000),
    }
}

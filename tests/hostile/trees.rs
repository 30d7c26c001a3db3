//! The tree table (docs/SPECIFICATION.md, "Tree table"), in the units of the frames.

use crate::parameters::Parameters;

#[derive(Clone, Copy)]
pub struct Tree {
    pub number: i64,
    pub gmax: f64,
    pub f_min: f64,
    pub light_a: f64,
    /// Tmin, Topt, Tmax in tenths of °C.
    pub temperature: [i64; 3],
    /// p/q.
    pub power: f64,
    /// VPD at which the factor is 1 and at which it is f_min, Pa.
    pub vpd: [i64; 2],
    /// The same of the soil: tenths of a percent (trees 1, 2) or kPa.
    pub soil: [i64; 2],
    /// cm
    pub leaf: f64,
    /// f_phen on the first and on the last day.
    pub ends: [f64; 2],
    /// f1 and f4, days.
    pub ramps: [i64; 2],
    /// The 1 in F-1.
    pub threshold: f64,
}

impl Tree {
    /// The fewest days of a period: E - A is at least f1 + f4.
    pub fn fewest_days(&self) -> i64 {
        self.ramps[0] + self.ramps[1] + 1
    }
}

/// The tree of a number from 1 to 6.
pub fn tree(number: i64) -> &'static Tree {
    &TREES[number as usize - 1]
}

/// The greatest soil reading of a tree's number: tenths of a percent, or kPa.
pub fn soil_most(number: i64) -> i64 {
    if number < 3 {
        1000
    } else {
        10000
    }
}

/// The trees 1 to 6, in the order and the units of a laboratory's own parameters.
#[rustfmt::skip]
const TABLE: [[i64; 16]; 6] = [
    [125, 10, 60, 0, 20, 200, 800, 2800, 150, 10, 8, 0, 0, 20, 30, 1],
    [240, 10, 42, 5, 20, 200, 500, 2700, 150, 10, 50, 0, 0, 20, 30, 1],
    [130, 16, 100, 0, 14, 35, 500, 3000, 50, 500, 8, 100, 100, 0, 0, 1],
    [155, 13, 60, 5, 16, 33, 1000, 3100, 50, 1250, 70, 0, 40, 20, 20, 1],
    [265, 13, 60, 0, 22, 35, 1100, 3100, 1000, 2000, 42, 30, 30, 15, 20, 1],
    [195, 2, 120, 1, 23, 39, 2200, 4000, 1000, 4500, 30, 100, 100, 0, 0, 1],
];

static TREES: [Tree; 6] = [row(1), row(2), row(3), row(4), row(5), row(6)];

const fn row(number: i64) -> Tree {
    Tree { number, ..Parameters { numbers: TABLE[number as usize - 1] }.tree() }
}

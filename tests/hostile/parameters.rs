//! The parameters of a laboratory's own tree (docs/SPECIFICATION.md, "A laboratory's own tree"):
//! their ranges, the tree that they make, and sets of them by chance.

use crate::rng::Rng;
use crate::season::pair;
use crate::trees::Tree;

/// The number of a tree whose parameters are measured.
pub const MEASURED: i64 = 7;
/// Their kind of frame.
pub const PARAMETERS: i64 = 7;
/// Of p and of q.
const MOST_POWER: i64 = 22;

pub const GMAX: usize = 0;
pub const F_MIN: usize = 1;
pub const LIGHT_A: usize = 2;
pub const TMIN: usize = 3;
pub const TOPT: usize = 4;
pub const TMAX: usize = 5;
pub const VPD_MAX: usize = 6;
pub const SOIL_MAX: usize = 8;
pub const LEAF: usize = 10;
pub const A: usize = 11;
pub const E: usize = 12;
pub const F1: usize = 13;
pub const F4: usize = 14;
pub const Y: usize = 15;

/// The least and the greatest of each; temperatures, VPD and suction rise besides.
#[rustfmt::skip]
pub const RANGES: [(i64, i64); 16] = [
    (1, 500), (1, 99), (1, 200), (-20, 60), (-20, 60), (-20, 60), (0, 10000), (0, 10000),
    (0, 10000), (0, 10000), (1, 200), (0, 100), (0, 100), (0, 200), (0, 200), (0, 10),
];

/// In the order of the frame, temperatures with their sign.
#[derive(Clone, Copy, PartialEq)]
pub struct Parameters {
    pub numbers: [i64; 16],
}

fn common_divisor(a: i64, b: i64) -> i64 {
    if b == 0 {
        a
    } else {
        common_divisor(b, a % b)
    }
}

impl Parameters {
    /// Out of the numbers that two bytes each are.
    pub fn of(mut numbers: [i64; 16]) -> Parameters {
        for number in &mut numbers[TMIN..=TMAX] {
            if *number >= 0x8000 {
                *number -= 0x10000;
            }
        }
        Parameters { numbers }
    }

    pub fn line(&self) -> String {
        format!("{PARAMETERS:02X}{}", self.numbers.map(pair).concat())
    }

    /// f1 + f4, days.
    pub fn ramps(&self) -> i64 {
        self.numbers[F1] + self.numbers[F4]
    }

    /// What row 24 lets pass.
    pub fn are_sound(&self) -> bool {
        let n = &self.numbers;
        let are_within =
            n.iter().zip(RANGES).all(|(number, (least, most))| (least..=most).contains(number));
        let rises = |at: usize| n[at] < n[at + 1];
        if !are_within || ![TMIN, TOPT, VPD_MAX, SOIL_MAX].into_iter().all(rises) {
            return false;
        }
        let (p, q) = (n[TMAX] - n[TOPT], n[TOPT] - n[TMIN]);
        p.max(q) / common_divisor(p, q) <= MOST_POWER
    }

    pub const fn tree(&self) -> Tree {
        let n = &self.numbers;
        Tree {
            number: MEASURED,
            gmax: n[GMAX] as f64,
            f_min: n[F_MIN] as f64 / 100.0,
            light_a: n[LIGHT_A] as f64 / 10000.0,
            temperature: [10 * n[TMIN], 10 * n[TOPT], 10 * n[TMAX]],
            power: (n[TMAX] - n[TOPT]) as f64 / (n[TOPT] - n[TMIN]) as f64,
            vpd: [n[VPD_MAX], n[VPD_MAX + 1]],
            soil: [n[SOIL_MAX], n[SOIL_MAX + 1]],
            leaf: n[LEAF] as f64 / 10.0,
            ends: [n[A] as f64 / 100.0, n[E] as f64 / 100.0],
            ramps: [n[F1], n[F4]],
            threshold: n[Y] as f64,
        }
    }
}

// ---- by chance

/// p/q at its ends and in between, at the ends of the temperatures' range and within it.
const TEMPERATURES: [[i64; 3]; 14] = [
    [-20, -19, -18],
    [58, 59, 60],
    [-20, 20, 60],
    [-20, -19, 3],
    [37, 59, 60],
    [37, 38, 60],
    [-20, 2, 3],
    [-20, 2, 23],
    [-20, 1, 23],
    [0, 22, 35],
    [5, 16, 33],
    [1, 23, 39],
    [0, 23, 46],
    [-1, 0, 1],
];

/// Sound ones, with ramps of so many days at most; at their corners now and then.
pub fn any_parameters(rng: &mut Rng, days: i64) -> Parameters {
    let often = rng.pick(&[1, 2, 4, 1000]);
    let mut numbers = [200, 10, 60, 0, 22, 35, 1000, 3200, 100, 1500, 43, 20, 40, 0, 0, 1];
    for at in (0..16).filter(|at| !(TMIN..LEAF).contains(at)) {
        if rng.one_in(often) {
            let (least, most) = RANGES[at];
            let any = rng.between(least, most);
            numbers[at] = rng.pick(&[least, most, most, any]);
        }
    }
    if rng.one_in(often) {
        numbers[TMIN..=TMAX].copy_from_slice(&any_temperatures(rng));
    }
    for at in [VPD_MAX, SOIL_MAX] {
        if rng.one_in(often) {
            numbers[at..at + 2].copy_from_slice(&any_pair(rng));
        }
    }
    numbers[F1] = numbers[F1].min(days);
    numbers[F4] = numbers[F4].min(days - numbers[F1]);
    Parameters { numbers }
}

fn any_temperatures(rng: &mut Rng) -> [i64; 3] {
    let rise = rng.between(1, 22);
    let fall = rng.between(1, 22);
    let least = rng.between(-20, 60 - rise - fall);
    let any = [least, least + rise, least + rise + fall];
    let listed = rng.pick(&TEMPERATURES);
    rng.pick(&[any, listed])
}

/// Rising within 0 to 10000, one apart now and then.
fn any_pair(rng: &mut Rng) -> [i64; 2] {
    let least = rng.between(0, 9999);
    let most = rng.between(least + 1, 10000);
    rng.pick(&[[0, 1], [9999, 10000], [0, 10000], [least, least + 1], [least, most], [least, most]])
}

/// One number at an end of its range, past it or anywhere; or two that must rise made equal or
/// exchanged; or p or q 23.
pub fn broken(rng: &mut Rng, parameters: &Parameters) -> Parameters {
    let mut numbers = parameters.numbers;
    let at = rng.below(16);
    let (least, most) = RANGES[at];
    let rising = rng.pick(&[TMIN, TOPT, VPD_MAX, SOIL_MAX]);
    match rng.below(6) {
        0 => numbers[at] = rng.pick(&[least - 1, most + 1]),
        1 => numbers[at] = rng.pick(&[least, most]),
        2 => numbers[at] = rng.pick(&[0x7FFF, 0x8000, 0xFFFF]),
        3 => numbers[rising] = numbers[rising + 1],
        4 => numbers.swap(rising, rising + 1),
        _ => numbers[TMIN..=TMAX].copy_from_slice(&rng.pick(&[
            [0, 1, 24],
            [0, 23, 24],
            [0, 22, 45],
            [0, 23, 45],
            [0, 46, 48],
            [-20, 59, 60],
        ])),
    }
    Parameters { numbers }
}

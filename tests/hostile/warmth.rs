//! Leaf age by warmth of a laboratory's own tree (docs/SPECIFICATION.md, "Leaf age by warmth"): its
//! frame, f_phen over the temperature sum, and sets of its numbers by chance.

use crate::rng::Rng;
use crate::season::pair;
use crate::trees::Tree;

/// Its kind of frame.
pub const WARMTH: i64 = 8;
/// Tenths of a degree over hours in a °C day.
pub const DEGREE_DAY: i64 = 240;
const MOST_END: i64 = 5000;

/// °C days.
#[derive(Clone, Copy, PartialEq)]
pub struct Warmth {
    pub rise: i64,
    pub fall: i64,
    pub end: i64,
}

impl Warmth {
    pub fn line(&self) -> String {
        format!("{WARMTH:02X}{}", [self.rise, self.fall, self.end].map(pair).concat())
    }

    /// What row 25 lets pass.
    pub fn is_sound(&self) -> bool {
        self.rise + self.fall <= self.end && (1..=MOST_END).contains(&self.end)
    }

    /// From a at 0 to 1 at rise, 1 to end less fall, to e at end, past that 0; the sum in tenths of
    /// a degree over hours.
    pub fn f_phen(&self, of: &Tree, sum: i64) -> f64 {
        let [a, e] = of.ends;
        let [rise, falls, end] =
            [self.rise, self.end - self.fall, self.end].map(|days| DEGREE_DAY * days);
        if sum > end {
            0.0
        } else if sum < rise {
            a + (1.0 - a) * sum as f64 / rise as f64
        } else if sum > falls {
            1.0 - (1.0 - e) * (sum - falls) as f64 / (end - falls) as f64
        } else {
            1.0
        }
    }
}

/// Sound numbers, their bends among the sums of so many days, or anywhere.
pub fn any_warmth(rng: &mut Rng, days: i64) -> Warmth {
    let reached = 20 * days + 2;
    let within = rng.between(1, reached.min(MOST_END));
    let any = rng.between(1, MOST_END);
    let end = rng.pick(&[within, within, within, any, 1, MOST_END]);
    let part = rng.between(0, end);
    let rise = rng.pick(&[0, 1, part, part, end]);
    let rest = end - rise;
    let any_fall = rng.between(0, rest);
    Warmth { rise, fall: rng.pick(&[0, any_fall, any_fall, rest]), end }
}

/// Numbers next to what row 25 refuses, on either side, and where two bytes end.
pub fn broken_warmth(rng: &mut Rng) -> Warmth {
    let end = rng.pick(&[0, 1, MOST_END, MOST_END + 1, 0x7FFF, 0x8000, 0xFFFF]);
    let rise = rng.between(0, end);
    let fall = (end - rise + rng.between(-1, 1)).max(0);
    rng.pick(&[
        Warmth { rise, fall, end },
        Warmth { rise: fall, fall: rise, end },
        Warmth { rise: 0, fall: 0, end },
        Warmth { rise: 0x8000, fall: 0x8000, end },
        Warmth { rise: 0xFFFF, fall: 1, end },
    ])
}

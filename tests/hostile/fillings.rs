//! A season with hours without ozone, filled in several ways, held to what was printed for it
//! (docs/SPECIFICATION.md, "Hours without ozone").

use crate::account::{answer, lines, Answer, Figures, Month, Sums};
use crate::dose::SLACK;
use crate::frames::*;
use crate::program::{held, numbers, Difference};
use crate::rng::Rng;
use crate::season::pair;
use std::path::Path;

/// The figures in a printed line after its first number.
const COUNTED: usize = 1;
const LOWER: usize = 2;
const UPPER: usize = 3;
const LEAST: usize = 4;
const MOST: usize = 5;

/// Fills an accepted text's gaps with 0, with the ceiling and by chance, and runs the program on
/// each: the lower figures are those with 0, the upper ones those with the ceiling; dose and AOT40
/// of each filling lie between them; "exceeded" never becomes "below", nor "below" "exceeded".
pub fn compare(program: &Path, text: &[u8], printed: &[u8]) -> Result<(), Difference> {
    let (Answer::Season(..), Some(gaps)) = (answer(NEWEST, text), Gaps::of(text)) else {
        return Ok(());
    };
    let mut rng = Rng::new(
        text.iter().fold(0, |sum: u64, &byte| sum.wrapping_mul(31).wrapping_add(byte as u64)),
        0,
    );
    let lowest = gaps.filled(text, || 0);
    compare_filled(program, &lowest, printed, &[COUNTED, LOWER, LEAST])?;
    let highest = gaps.filled(text, || gaps.ceiling);
    compare_filled(program, &highest, printed, &[COUNTED, UPPER, MOST])?;
    let by_chance = gaps.filled(text, || any_ozone(&mut rng, gaps.ceiling));
    compare_filled(program, &by_chance, printed, &[COUNTED])
}

/// Ozone up to the ceiling.
fn any_ozone(rng: &mut Rng, ceiling: i64) -> i64 {
    let any = rng.between(0, ceiling);
    rng.pick(&[0, 400, 401, ceiling - 1, ceiling, any, any, any]).min(ceiling)
}

/// Where a text lacks ozone.
struct Gaps {
    ceiling: i64,
    /// Where each FFFF begins.
    places: Vec<usize>,
}

impl Gaps {
    /// None where there is none, or no ceiling.
    fn of(text: &[u8]) -> Option<Gaps> {
        let lines = lines(text);
        let ceiling =
            i64::from_str_radix(std::str::from_utf8(&lines[ceiling_at(&lines)?][2..]).ok()?, 16)
                .ok()?;
        let mut places = Vec::new();
        let mut start = 0;
        for line in &lines {
            if is_hour(line) && line[8..12] == *b"FFFF" {
                places.push(start + 8);
            }
            start += line.len() + 1;
        }
        (!places.is_empty()).then_some(Gaps { ceiling, places })
    }

    fn filled(&self, text: &[u8], mut ozone: impl FnMut() -> i64) -> Vec<u8> {
        let mut filled = text.to_vec();
        for &place in &self.places {
            filled[place..place + 4].copy_from_slice(pair(ozone()).as_bytes());
        }
        filled
    }
}

/// The filled text against what was printed before it was filled; of each line the figures named
/// are the same.
fn compare_filled(
    program: &Path,
    filled: &[u8],
    before: &[u8],
    same: &[usize],
) -> Result<(), Difference> {
    let (expected, after) =
        held(program, filled).map_err(|difference| of_filled(difference, filled))?;
    let why = match &expected {
        Answer::Season(figures, months) => wrong_filling(figures, months, before, &after, same),
        Answer::Refused { .. } => Some("it is refused"),
    };
    let Some(why) = why else {
        return Ok(());
    };
    let shown = |printed: &[u8]| format!("{:?}", String::from_utf8_lossy(printed));
    let difference =
        Difference { expected: format!("{} unfilled, {why}", shown(before)), got: shown(&after) };
    Err(of_filled(difference, filled))
}

/// The difference, named as one of the filled text.
fn of_filled(difference: Difference, filled: &[u8]) -> Difference {
    let ozone: Vec<&[u8]> = lines(filled)
        .into_iter()
        .filter(|line| is_hour(line))
        .map(|line| &line[8..12])
        .take(24)
        .collect();
    Difference {
        got: format!(
            "{} with its gaps filled (first ozone readings {})",
            difference.got,
            ozone.join(&b' ').escape_ascii()
        ),
        ..difference
    }
}

fn wrong_filling(
    figures: &Figures,
    months: &[Month],
    before: &[u8],
    after: &[u8],
    same: &[usize],
) -> Option<&'static str> {
    let (unfilled, filled) = (figures_of(before), figures_of(after));
    let sums: Vec<&Sums> =
        std::iter::once(&figures.sums).chain(months.iter().map(|month| &month.sums)).collect();
    if unfilled.len() != sums.len() || filled.len() != sums.len() {
        return Some("a line for the season and for each month");
    }
    if (0..sums.len())
        .any(|at| same.iter().any(|&figure| unfilled[at][figure] != filled[at][figure]))
    {
        return Some("a figure is another than that of the filled text");
    }
    if (0..sums.len()).any(|at| !lies_between(sums[at], &unfilled[at])) {
        return Some("a filling's dose or AOT40 is not between lower and upper");
    }
    let turned = [verdict(before), verdict(after)];
    let is_turned = turned == ["exceeded", "below"] || turned == ["below", "exceeded"];
    is_turned.then_some("the filling turned the verdict")
}

/// The six numbers of each printed line.
fn figures_of(printed: &[u8]) -> Vec<[i64; 6]> {
    lines(printed).into_iter().filter_map(numbers).collect()
}

fn verdict(printed: &[u8]) -> &str {
    std::str::from_utf8(lines(printed)[0])
        .unwrap_or_default()
        .rsplit(' ')
        .next()
        .unwrap_or_default()
}

/// A filled text's sums between the two printed before: it has one dose and one AOT40.
fn lies_between(sums: &Sums, printed: &[i64; 6]) -> bool {
    let (dose, aot40) = (sums.dose[0], sums.aot40[0]);
    let holds_dose = printed[LOWER] as f64 - SLACK <= dose && dose <= printed[UPPER] as f64 + SLACK;
    holds_dose && (printed[LEAST]..=printed[MOST]).contains(&aot40)
}

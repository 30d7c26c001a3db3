//! The makers of cases: each makes a text by chance.

use crate::damage::*;
use crate::frames::{CEILING, NEWEST};
use crate::parameters::{MEASURED, PARAMETERS};
use crate::rng::Rng;
use crate::season::*;
use crate::turns::*;
use crate::warmth::{any_warmth, WARMTH};

enum Maker {
    Chance(fn(&mut Rng) -> Vec<u8>),
    /// Goes through a list by the number of the turn.
    InTurn(fn(&mut Rng, u64) -> Vec<u8>),
}
use Maker::{Chance, InTurn};

const MAKERS: [(&str, Maker); 37] = [
    ("weather", Chance(weather)),
    ("every reading", InTurn(every_reading)),
    ("every field", InTurn(every_field)),
    ("corners", Chance(corners)),
    ("every byte", InTurn(every_byte)),
    ("every length", InTurn(every_length)),
    ("every kind", InTurn(every_kind)),
    ("every temperature", InTurn(every_temperature)),
    ("every bend", InTurn(every_bend)),
    ("every ramp", InTurn(every_ramp)),
    ("every border of months", InTurn(every_border)),
    ("near the level", Chance(near)),
    ("near the level, few hours", Chance(near_few)),
    ("out of range", Chance(out_of_range)),
    ("header", Chance(header)),
    ("damaged", Chance(damaged)),
    ("damaged, few lines", Chance(damaged_few)),
    ("turns", Chance(turns)),
    ("after the end", Chance(after)),
    ("count", Chance(count)),
    ("cut", Chance(cut_anywhere)),
    ("disturbed", Chance(disturbed)),
    ("noise", Chance(noise)),
    ("mixed kinds", Chance(mixed)),
    ("every mixture of kinds", InTurn(every_mixture)),
    ("every tenth of a degree", InTurn(every_tenth)),
    ("missing ozone", Chance(missing)),
    ("every ceiling", InTurn(every_ceiling)),
    ("every gap", InTurn(every_gap)),
    ("own tree", Chance(own_tree)),
    ("every parameter", InTurn(every_parameter)),
    ("every place of parameters", InTurn(every_place)),
    ("wrong parameters", Chance(wrong_own)),
    ("leaf age by warmth", Chance(warm)),
    ("every warmth", InTurn(every_warmth)),
    ("every sum", InTurn(every_sum)),
    ("wrong warmth", Chance(wrong_warm)),
];
/// The last ones need kind 04, 05, 06, 07 or 08.
const MAKERS_IN_USE: usize = match NEWEST {
    ..=3 => 23,
    4 => 25,
    5 => 26,
    6 => 29,
    7 => 33,
    _ => 37,
};

/// A whole season instead, now and then.
const WHOLE_EVERY: u64 = 150;

/// The name and the text of a case; the makers take turns, each seed starting elsewhere in their
/// lists.
pub fn make(seed: u64, case: u64) -> (&'static str, Vec<u8>) {
    let mut rng = Rng::new(seed, case);
    if case % WHOLE_EVERY == WHOLE_EVERY - 1 {
        return ("whole season", whole(&mut rng));
    }
    let makers = MAKERS_IN_USE as u64;
    let (name, maker) = &MAKERS[(case % makers) as usize];
    let text = match maker {
        Chance(make) => make(&mut rng),
        InTurn(make) => make(&mut rng, seed % 10000 + case / makers),
    };
    (name, text)
}

fn season(rng: &mut Rng) -> Season {
    let number = any_tree(rng);
    let header = short_period(rng, number);
    plausible(rng, header)
}

/// A season of few lines: trees that need no ramps.
fn short_season(rng: &mut Rng) -> Season {
    let number = any_short_tree(rng);
    let header = short_period(rng, number);
    plausible(rng, header)
}

fn season_text(rng: &mut Rng, season: &Season) -> Vec<u8> {
    text(rng, &season.lines())
}

fn weather(rng: &mut Rng) -> Vec<u8> {
    let season = season(rng);
    season_text(rng, &season)
}

fn corners(rng: &mut Rng) -> Vec<u8> {
    let mut season = season(rng);
    all_to_corners(rng, &mut season);
    season_text(rng, &season)
}

fn all_to_corners(rng: &mut Rng, season: &mut Season) {
    let of = season.header.of();
    for readings in &mut season.hours {
        if rng.one_in(3) {
            light_up(rng, readings);
        }
        put_to_corners(rng, &of, readings);
    }
}

fn near(rng: &mut Rng) -> Vec<u8> {
    let mut season = season(rng);
    near_level(rng, &mut season);
    season_text(rng, &season)
}

/// With few counted hours lower and upper must lie close together.
fn near_few(rng: &mut Rng) -> Vec<u8> {
    let mut season = short_season(rng);
    let days = [season.header.first, season.header.last];
    few_lit(rng, &mut season, &days);
    near_level(rng, &mut season);
    season_text(rng, &season)
}

fn out_of_range(rng: &mut Rng) -> Vec<u8> {
    let season = season(rng);
    let mut lines = season.lines();
    past_range(rng, &season, &mut lines);
    text(rng, &lines)
}

fn header(rng: &mut Rng) -> Vec<u8> {
    let season = season(rng);
    let lines = damaged_header(rng, &season);
    text(rng, &lines)
}

fn damaged(rng: &mut Rng) -> Vec<u8> {
    let season = short_season(rng);
    let lines = damage(rng, &season);
    text(rng, &lines)
}

/// The damage in the first lines or the last, so that it meets the header and the end.
fn damaged_few(rng: &mut Rng) -> Vec<u8> {
    let season = season(rng);
    let whole = season.lines();
    let last = whole.len() - 1;
    let mut lines = vec![whole[0].clone(), whole[1].clone(), whole[2].clone(), whole[last].clone()];
    for _ in 0..rng.between(1, 2) {
        match rng.below(6) {
            0 => wrong_length(rng, &mut lines),
            1 => wrong_digit(rng, &mut lines),
            2 => wrong_kind(rng, &mut lines),
            3 => wrong_hour(rng, &mut lines),
            4 if NEWEST >= WARMTH && rng.one_in(3) => wrong_warmth(rng, &mut lines),
            4 if NEWEST >= PARAMETERS && rng.one_in(2) => {
                wrong_parameters(rng, &season, &mut lines)
            }
            4 if NEWEST >= CEILING => wrong_ceiling(rng, &mut lines),
            _ => wrong_turn(rng, &mut lines),
        }
    }
    text(rng, &lines)
}

fn turns(rng: &mut Rng) -> Vec<u8> {
    let mut lines = short_season(rng).lines();
    for _ in 0..rng.between(1, 2) {
        wrong_turn(rng, &mut lines);
    }
    text(rng, &lines)
}

fn after(rng: &mut Rng) -> Vec<u8> {
    let season = short_season(rng);
    let mut lines = season.lines();
    if rng.one_in(3) {
        let hour = hour_line(season.header.last + 1, 0, &season.hours[0]);
        lines.insert(lines.len() - 1, hour.into_bytes()); // one hour too many, then the end
    }
    after_the_end(rng, &season, &mut lines);
    text(rng, &lines)
}

fn count(rng: &mut Rng) -> Vec<u8> {
    let mut lines = season(rng).lines();
    wrong_count(rng, &mut lines);
    text(rng, &lines)
}

fn cut_anywhere(rng: &mut Rng) -> Vec<u8> {
    let whole = weather(rng);
    cut(rng, whole)
}

fn disturbed(rng: &mut Rng) -> Vec<u8> {
    let season = short_season(rng);
    let whole = season_text(rng, &season);
    disturb(rng, whole)
}

/// Hours of several kinds, with other damage besides or not.
fn mixed(rng: &mut Rng) -> Vec<u8> {
    let season = short_season(rng);
    let mut lines = if rng.one_in(3) { damage(rng, &season) } else { season.lines() };
    for _ in 0..rng.between(1, 3) {
        other_kind(rng, &season, &mut lines);
    }
    text(rng, &lines)
}

/// A ceiling and hours without ozone; few hours counted, or the level near one end of the pair, now
/// and then.
fn missing(rng: &mut Rng) -> Vec<u8> {
    let mut season = if rng.one_in(3) { season(rng) } else { short_season(rng) };
    lose_ozone(rng, &mut season);
    if rng.one_in(2) {
        let days = [season.header.first, season.header.last];
        few_lit(rng, &mut season, &days);
    }
    if rng.one_in(2) {
        near_level(rng, &mut season);
    }
    season_text(rng, &season)
}

/// A laboratory's tree with its parameters at corners, its hours at theirs; now and then few of
/// them counted or the level near.
fn own_tree(rng: &mut Rng) -> Vec<u8> {
    let header = short_period(rng, MEASURED);
    let mut season = plausible(rng, header);
    match rng.below(3) {
        0 => all_to_corners(rng, &mut season),
        1 => few_lit(rng, &mut season, &[header.first, header.last]),
        _ => {}
    }
    if rng.one_in(3) {
        near_level(rng, &mut season);
    }
    season_text(rng, &season)
}

/// Its parameters, and now and then other lines, wrong.
fn wrong_own(rng: &mut Rng) -> Vec<u8> {
    let header = if rng.one_in(4) { short_period(rng, 6) } else { short_period(rng, MEASURED) };
    let season = plausible(rng, header);
    let mut lines = if rng.one_in(4) { damage(rng, &season) } else { season.lines() };
    for _ in 0..rng.pick(&[1, 1, 2]) {
        wrong_parameters(rng, &season, &mut lines);
    }
    text(rng, &lines)
}

/// A laboratory's tree by warmth over some days.
fn warm_season(rng: &mut Rng) -> Season {
    let length = rng.between(1, 12);
    let mut header = period(rng, MEASURED, length);
    header.warmth = Some(any_warmth(rng, length));
    plausible(rng, header)
}

/// Its hours in plausible weather, at corners, with frost, or few of them counted; the level near
/// now and then.
fn warm(rng: &mut Rng) -> Vec<u8> {
    let mut season = warm_season(rng);
    let days = [season.header.first, season.header.last];
    match rng.below(4) {
        0 => all_to_corners(rng, &mut season),
        1 => few_lit(rng, &mut season, &days),
        2 => freeze(rng, &mut season),
        _ => {}
    }
    if rng.one_in(3) {
        near_level(rng, &mut season);
    }
    season_text(rng, &season)
}

/// Its warmth, and now and then other lines, wrong.
fn wrong_warm(rng: &mut Rng) -> Vec<u8> {
    let season = if rng.one_in(4) { short_season(rng) } else { warm_season(rng) };
    let mut lines = if rng.one_in(4) { damage(rng, &season) } else { season.lines() };
    for _ in 0..rng.pick(&[1, 1, 2]) {
        wrong_warmth(rng, &mut lines);
    }
    text(rng, &lines)
}

/// A growing season or a whole year, near the level or with corners; now and then with many lines
/// after its end.
fn whole(rng: &mut Rng) -> Vec<u8> {
    let number = rng.between(1, TREES as i64);
    let days = rng.between(365, 366);
    let length = if rng.one_in(4) { days } else { rng.between(150, 220) };
    let mut header = period(rng, number, length.min(days - 1));
    if length == days {
        (header.days, header.first, header.last) = (days, 1, days);
    }
    header = with_own(rng, header);
    let mut season = plausible(rng, header);
    if rng.one_in(2) {
        let of = header.of();
        season.hours.iter_mut().for_each(|readings| put_to_corners(rng, &of, readings));
    }
    near_level(rng, &mut season);
    let mut lines = season.lines();
    if rng.one_in(8) {
        let more = lines[1..].to_vec();
        lines.extend(more);
    }
    text(rng, &lines)
}

//! The account in doubles held to season texts with known answers: NAME.txt and NAME.expect in the
//! folder of vectors and in the folders within it, whose texts have further kinds of lines.

use crate::account::{answer, refusal, Answer, Figures, Month, Sums};
use std::fs::read_to_string;
use std::path::{Path, PathBuf};

/// How far the dose may lie from the exact one: nmol m⁻², and a part of the dose.
const SLACK: (f64, f64) = (1e-6, 1e-12);

/// Holds the account to every text; what was held, or the first text whose answer is another.
pub fn hold(folder: &Path) -> Result<String, String> {
    let mut held = vec![hold_folder(folder)?];
    for path in entries(folder)?.into_iter().filter(|path| path.is_dir()) {
        held.push(hold_folder(&path)?);
    }
    Ok(held.join("\n"))
}

/// The newest kind that the answers in the folder know: that of the lines of accepted texts.
fn newest_in(folder: &Path) -> Result<i64, String> {
    let mut newest = 3;
    for path in texts(folder)? {
        if !read_text(&path.with_extension("expect"))?.starts_with("refused") {
            let text = read_text(&path)?;
            let kinds =
                text.lines().filter_map(|line| i64::from_str_radix(line.get(..2)?, 16).ok());
            newest = kinds.fold(newest, i64::max);
        }
    }
    Ok(newest)
}

fn read_text(path: &Path) -> Result<String, String> {
    read_to_string(path).map_err(|error| format!("{}: {error}", path.display()))
}

fn hold_folder(folder: &Path) -> Result<String, String> {
    let newest = newest_in(folder)?;
    let (mut seasons, mut refusals) = (0, 0);
    for path in texts(folder)? {
        let text = std::fs::read(&path).map_err(|error| format!("{}: {error}", path.display()))?;
        let expected = read_text(&path.with_extension("expect"))?;
        let found = answer(newest, &text);
        if let Some(why) = differs(&found, &expected) {
            return Err(format!("{}: {why}", path.display()));
        }
        match found {
            Answer::Season(..) => seasons += 1,
            Answer::Refused { .. } => refusals += 1,
        }
    }
    Ok(format!("{}: {seasons} seasons and {refusals} refusals, ok", folder.display()))
}

/// What stands in a folder, sorted.
fn entries(folder: &Path) -> Result<Vec<PathBuf>, String> {
    let found =
        std::fs::read_dir(folder).map_err(|error| format!("{}: {error}", folder.display()))?;
    let mut paths: Vec<PathBuf> = found.flatten().map(|entry| entry.path()).collect();
    paths.sort();
    Ok(paths)
}

fn texts(folder: &Path) -> Result<Vec<PathBuf>, String> {
    let mut paths = entries(folder)?;
    paths.retain(|path| path.extension().is_some_and(|end| end == "txt"));
    Ok(paths)
}

/// How the account's answer differs from the expected one, if it does.
fn differs(found: &Answer, expected: &str) -> Option<String> {
    let (season, months) = expected.split_once('\n').unwrap_or((expected, ""));
    match found {
        Answer::Refused { code, line } => {
            let refusal = refusal(*code, *line);
            (refusal.trim_end() != season).then(|| format!("{refusal:?}, not {season}"))
        }
        Answer::Season(figures, found) => {
            season_differs(figures, season).or_else(|| months_differ(found, months))
        }
    }
}

/// `hours counted dose AOT40 level LEVEL`, or with further kinds of lines
/// `hours counted missing LOW HIGH AOT40LOW AOT40HIGH level LEVEL`.
fn season_differs(figures: &Figures, expected: &str) -> Option<String> {
    let Figures { hours, sums, level, .. } = figures;
    let words: Vec<&str> = expected.split(' ').collect();
    let (exact, right) = match words.len() {
        6 => (
            [words[2]; 2],
            format!("{hours} {} {} {} level {level}", sums.counted, words[2], sums.aot40[0]),
        ),
        9 => (
            [words[3], words[4]],
            format!("{hours} {} level {level}", described(sums, [words[3], words[4]])),
        ),
        _ => return Some(format!("a season, not {expected}")),
    };
    differs_in(sums, exact, &right, expected)
}

/// `month counted missing LOW HIGH AOT40LOW AOT40HIGH` for each month, or none.
fn months_differ(months: &[Month], expected: &str) -> Option<String> {
    let lines: Vec<&str> = expected.lines().collect();
    if !lines.is_empty() && lines.len() != months.len() {
        return Some(format!("{} months, not {}", months.len(), lines.len()));
    }
    months.iter().zip(lines).find_map(|(month, line)| {
        let mut words = line.split(' ').skip(3);
        let exact = [(); 2].map(|_| words.next().unwrap_or_default());
        differs_in(
            &month.sums,
            exact,
            &format!("{} {}", month.number, described(&month.sums, exact)),
            line,
        )
    })
}

/// The sums in the words of an answer, its doses for their own.
fn described(sums: &Sums, [low, high]: [&str; 2]) -> String {
    let Sums { counted, missing, aot40: [least, most], .. } = sums;
    format!("{counted} {missing} {low} {high} {least} {most}")
}

/// How the doses or the line differ, if they do.
fn differs_in(sums: &Sums, exact: [&str; 2], right: &str, expected: &str) -> Option<String> {
    let is_same = right == expected && (0..2).all(|end| is_near(sums.dose[end], exact[end]));
    (!is_same).then(|| format!("{right} with doses {:?}, not {expected}", sums.dose))
}

fn is_near(dose: f64, exact: &str) -> bool {
    exact.parse::<f64>().is_ok_and(|exact| (dose - exact).abs() <= SLACK.0 + SLACK.1 * exact)
}

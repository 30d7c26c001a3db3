//! The program run on a text, and its lines held to the account in doubles.

use crate::account::{answer, limits, refusal, verdict, Answer, Figures, Month, Sums};
use crate::dose::SLACK;
use crate::fillings;
use crate::frames::NEWEST;
use std::io::{Read, Write};
use std::path::Path;
use std::process::{Child, Command, Stdio};
use std::sync::mpsc;
use std::thread;
use std::time::Duration;

const LONGEST_RUN: Duration = Duration::from_secs(10);
/// No more of what it prints is read.
const MOST_PRINTED: u64 = 4096;

pub struct Difference {
    pub expected: String,
    pub got: String,
}

/// What the program answered, or how that differs from the account in doubles.
pub fn compare(program: &Path, text: &[u8]) -> Result<String, Difference> {
    let (_, printed) = held(program, text)?;
    fillings::compare(program, text, &printed)?;
    Ok(summary(&printed))
}

/// The account's answer and what the program printed, if that is right.
pub fn held(program: &Path, text: &[u8]) -> Result<(Answer, Vec<u8>), Difference> {
    let expected = answer(NEWEST, text);
    let differs = |got: String, why: &str| Difference {
        expected: format!("{}{why}", describe(&expected)),
        got,
    };
    let printed = run(program, text).map_err(|failure| differs(failure, ""))?;
    match wrong(&expected, &printed) {
        None => Ok((expected, printed)),
        Some(why) => Err(differs(format!("{:?}", String::from_utf8_lossy(&printed)), &why)),
    }
}

fn describe(expected: &Answer) -> String {
    match expected {
        Answer::Refused { code, line } => format!("{:?}", refusal(*code, *line)),
        Answer::Season(figures, months) => {
            let months: String = months
                .iter()
                .map(|month| format!("; month {}: {}", month.number, describe_sums(&month.sums)))
                .collect();
            format!(
                "hours {}, level {}, {}{months}",
                figures.hours,
                figures.level,
                describe_sums(&figures.sums)
            )
        }
    }
}

fn describe_sums(sums: &Sums) -> String {
    let Sums { counted, missing, dose: [low, high], aot40: [least, most] } = sums;
    format!(
        "counted {counted}, missing {missing}, dose {low:.3} to {high:.3}, AOT40 {least} to {most}"
    )
}

/// The row or the verdict of a right answer.
fn summary(printed: &[u8]) -> String {
    let line = String::from_utf8_lossy(printed);
    let words: Vec<&str> = line.split_whitespace().collect();
    if words[0] == "refused" {
        format!("row {}", words[1])
    } else {
        words[6].to_string()
    }
}

// ---- the comparison

/// Why the printed lines are wrong, if they are.
fn wrong(expected: &Answer, printed: &[u8]) -> Option<String> {
    match expected {
        Answer::Refused { code, line } if printed == refusal(*code, *line).as_bytes() => None,
        Answer::Refused { .. } => Some(String::new()),
        Answer::Season(figures, months) => {
            wrong_season(figures, months, printed).map(|why| format!("; {why}"))
        }
    }
}

fn wrong_season(figures: &Figures, months: &[Month], printed: &[u8]) -> Option<String> {
    let mut lines = printed.split_inclusive(|&byte| byte == b'\n');
    let line = lines.next().unwrap_or_default();
    let Some([hours, sums @ ..]) = numbers(line) else {
        return Some("no line of six numbers and a verdict".into());
    };
    if hours != figures.hours {
        return Some("hours is another".into());
    }
    if let Some(why) = wrong_sums(figures.tree, &figures.sums, sums) {
        return Some(why.into());
    }
    let [counted, lower, upper, least, most] = sums;
    let right = format!(
        "{hours} {counted} {lower} {upper} {least} {most} {}\n",
        verdict(lower, upper, figures.level)
    );
    if line != right.as_bytes() {
        return Some(format!("the line is {right:?}"));
    }
    wrong_months(figures.tree, months, &lines.collect::<Vec<_>>(), sums)
}

/// A line for each month touched and no other, in order; added up they are the season's five
/// figures.
fn wrong_months(tree: i64, months: &[Month], lines: &[&[u8]], season: [i64; 5]) -> Option<String> {
    if lines.len() != months.len() {
        return Some(format!("{} months are touched, {} lines follow", months.len(), lines.len()));
    }
    let mut added = [0; 5];
    for (month, line) in months.iter().zip(lines) {
        match month_figures(tree, month, line) {
            Ok(sums) => (0..5).for_each(|at| added[at] += sums[at]),
            Err(why) => return Some(format!("month {}: {why}", month.number)),
        }
    }
    (added != season).then(|| "the months do not add up to the season".into())
}

/// The five figures of a month's line, or why it is wrong.
fn month_figures(tree: i64, month: &Month, line: &[u8]) -> Result<[i64; 5], String> {
    let [number, sums @ ..] =
        numbers(line.strip_suffix(b"\n").unwrap_or(line)).ok_or("no line of six numbers")?;
    if number != month.number {
        return Err("number is another".into());
    }
    if let Some(why) = wrong_sums(tree, &month.sums, sums) {
        return Err(why.into());
    }
    let [counted, lower, upper, least, most] = sums;
    let right = format!("{number} {counted} {lower} {upper} {least} {most}\n");
    if line == right.as_bytes() {
        Ok(sums)
    } else {
        Err(format!("the line is {right:?}"))
    }
}

fn wrong_sums(
    tree: i64,
    sums: &Sums,
    [counted, lower, upper, least, most]: [i64; 5],
) -> Option<&'static str> {
    if (counted, [least, most]) != (sums.counted, sums.aot40) {
        return Some("counted or AOT40 is another");
    }
    let Sums { missing, dose: [low, high], .. } = *sums;
    if low < lower as f64 - SLACK || high > upper as f64 + SLACK {
        return Some("a dose is not between lower and upper");
    }
    let (most_hour, each) = limits(tree);
    let gap = each * (counted - missing) + most_hour * missing;
    let is_apart = lower > upper || upper - lower > gap || upper > most_hour * counted;
    is_apart.then_some("lower and upper are out of order, too far apart or too great")
}

/// The six numbers at a line's start; how they are written is seen by the line made of them.
pub fn numbers(printed: &[u8]) -> Option<[i64; 6]> {
    let line = std::str::from_utf8(printed).ok()?;
    let numbers: Vec<i64> = line.split(' ').map_while(|word| word.parse().ok()).collect();
    let six: [i64; 6] = numbers.try_into().ok()?;
    six.iter().all(|number| (0..1 << 40).contains(number)).then_some(six)
}

// ---- the run

/// What the program prints; or how its run failed.
fn run(program: &Path, text: &[u8]) -> Result<Vec<u8>, String> {
    let mut child = start(program).map_err(|error| format!("it cannot be run: {error}"))?;
    pour(&mut child, text.to_vec());
    let printed = collect(&mut child).recv_timeout(LONGEST_RUN);
    if printed.is_err() {
        let _ = child.kill();
    }
    let status = child.wait().map_err(|error| error.to_string())?;
    match printed {
        Err(_) => Err(format!("no end after {} s", LONGEST_RUN.as_secs())),
        Ok(_) if status.code().is_none() => Err(format!("ended by a signal: {status}")),
        Ok(bytes) => Ok(bytes),
    }
}

fn start(program: &Path) -> std::io::Result<Child> {
    Command::new(program).stdin(Stdio::piped()).stdout(Stdio::piped()).stderr(Stdio::null()).spawn()
}

/// Writes the text from a thread, as far as the program reads it.
fn pour(child: &mut Child, text: Vec<u8>) {
    let mut input = child.stdin.take().expect("its input is piped");
    thread::spawn(move || {
        let _ = input.write_all(&text);
    });
}

/// Reads what is printed in a thread, to its end.
fn collect(child: &mut Child) -> mpsc::Receiver<Vec<u8>> {
    let output = child.stdout.take().expect("its output is piped");
    let (send, receive) = mpsc::channel();
    thread::spawn(move || {
        let mut printed = Vec::new();
        let _ = output.take(MOST_PRINTED).read_to_end(&mut printed);
        let _ = send.send(printed);
    });
    receive
}

//! Hostile season texts, made by chance from a seed, against the report program pod1.
//!
//!     hostile [--seed S] [--cases N] [--seconds T] [PROGRAM]
//!     hostile --vectors FOLDER      the account itself against season texts with known answers
//!
//! Written from docs/SPECIFICATION.md alone, with an account of its own in doubles. Each text's
//! answer is compared: refusals byte for byte; hours, counted hours and both AOT40 figures equal;
//! the doses with missing ozone read as 0 and as the ceiling between lower and upper; these no more
//! than 4 nmol m⁻² apart for each counted hour with ozone and 800000 for each without (tree 7: 40
//! and 1500000); the verdict by its rule; the same of each month touched, without a verdict; and
//! the months' five figures add up to the season's. A season that lacks ozone is filled with 0,
//! with the ceiling and by chance, and each filling held to what was printed for it (fillings.rs).
//! Which kinds of frames the program knows is NEWEST in frames.rs. At the first difference it
//! prints the smallest text that it can cut the case down to, and exits with 1. PROGRAM is
//! target/bin/pod1 of the repository where none is named.

mod account;
mod calendar;
mod cases;
mod cut;
mod damage;
mod dose;
mod fillings;
mod frames;
mod parameters;
mod program;
mod rng;
mod season;
mod trees;
mod turns;
mod vectors;
mod warmth;
mod words;

use std::collections::BTreeMap;
use std::path::{Path, PathBuf};
use std::process::exit;
use std::time::Instant;
use words::Run;

/// Where neither cases nor seconds are given.
const FEW: u64 = 300;

/// Hours with all readings 0 that are shown one by one.
const LONGEST_RUN: usize = 24;

struct Arguments {
    run: Run,
    vectors: Option<PathBuf>,
    program: PathBuf,
}

const USAGE: &str = "[--seed S] [--cases N] [--seconds T] [PROGRAM] | --vectors FOLDER";

fn main() {
    let arguments = arguments().unwrap_or_else(|wrong| {
        eprintln!("hostile: {wrong}\nusage: hostile {USAGE}");
        exit(2);
    });
    let Arguments { run, vectors, program } = arguments;
    if let Some(folder) = vectors {
        hold_vectors(&folder);
    }
    println!("hostile: {}, {}", program.display(), run.said());
    if !program.is_file() {
        eprintln!("hostile: there is no {}", program.display());
        exit(2);
    }
    let started = Instant::now();
    let mut answers = BTreeMap::new();
    let mut case = 0;
    while case < run.most && started.elapsed().as_secs() < run.seconds {
        let (kind, text) = cases::make(run.seed, case);
        match program::compare(&program, &text) {
            Ok(answer) => *answers.entry(answer).or_insert(0) += 1,
            Err(difference) => fail(&program, case, kind, text, difference),
        }
        case += 1;
    }
    let counts: Vec<String> = answers
        .iter()
        .map(|(answer, count): (&String, &u64)| format!("{answer} {count}"))
        .collect();
    println!("hostile: {}", counts.join(", "));
    println!("hostile: {case} cases in {:.1} s, ok", started.elapsed().as_secs_f64());
}

fn hold_vectors(folder: &Path) -> ! {
    match vectors::hold(folder) {
        Ok(held) => println!("{held}"),
        Err(why) => {
            println!("{why}");
            exit(1);
        }
    }
    exit(0);
}

/// target/bin/pod1, beside the folder target/hostile of this program.
fn default_program() -> PathBuf {
    let own = std::env::current_exe().unwrap_or_default();
    own.ancestors().nth(2).unwrap_or(Path::new("target")).join("bin/pod1")
}

fn arguments() -> Result<Arguments, String> {
    let (mut vectors, mut program) = (None, default_program());
    let run = Run::of_words("cases", FEW, |word, words| {
        match word {
            "--vectors" => vectors = Some(words.next().ok_or("--vectors needs a folder")?.into()),
            _ if word.starts_with('-') => return Err(format!("{word} is unknown")),
            _ => program = PathBuf::from(word),
        }
        Ok(())
    })?;
    Ok(Arguments { run, vectors, program })
}

/// Prints the case, cut down, and keeps it as a file.
fn fail(
    program: &Path,
    case: u64,
    kind: &str,
    text: Vec<u8>,
    difference: program::Difference,
) -> ! {
    println!("hostile: case {case} ({kind}), {} bytes: cutting it down", text.len());
    println!("expected {}\ngot {}", difference.expected, difference.got);
    let cut = cut::cut_down(program, text, difference);
    println!("cut down to {} bytes:\n{}", cut.text.len(), shown(&cut.text));
    println!("expected {}\ngot {}", cut.difference.expected, cut.difference.got);
    let file = std::env::current_exe().unwrap_or_default().with_file_name("difference.txt");
    if std::fs::write(&file, &cut.text).is_ok() {
        println!("the text is in {}", file.display());
    }
    println!("hostile: a difference");
    exit(1);
}

/// A line of the text on each line, bytes that do not print by their number; a long run of hours
/// with all readings 0 by its length.
fn shown(text: &[u8]) -> String {
    let lines: Vec<&[u8]> = text.split_inclusive(|&byte| byte == b'\n').collect();
    let mut shown = Vec::new();
    for run in lines.chunk_by(|one, next| cut::is_still(one) && cut::is_still(next)) {
        let whole = if run.len() > LONGEST_RUN { &run[..1] } else { run };
        shown.extend(whole.iter().map(|line| format!("    {}", line.escape_ascii())));
        if whole.len() < run.len() {
            shown.push(format!("    ... {} more such hours", run.len() - 1));
        }
    }
    shown.join("\n")
}

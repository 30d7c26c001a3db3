//! Hostile calls on the part, made by chance from a seed: lists of calls on accounts, trials, lists
//! of accounts, floats, season texts and writers.
//!
//!     calls [--seed S] [--lists N] [--seconds T]
//!     calls --list K [--seed S]      one list alone, its calls printed
//!
//! Written from docs/SPECIFICATION.md alone; the calls are those that examples/pod1.rs declares.
//! Every answer and every byte that is lent is compared, with a margin on both sides; the dose that
//! an hour adds is held to the dose in doubles, and the part's own numbers are carried on, so that
//! every later answer is exact. Trials, lists and floats are held to feeding the line besides. The
//! answers are counted by call and row, and one that never comes up in a long run is a failure. At
//! the first difference it prints the calls of that list, bytes in hexadecimal, and exits with 1.

#[allow(dead_code)]
#[path = "../account.rs"]
mod account;
#[allow(dead_code)]
#[path = "../calendar.rs"]
mod calendar;
#[allow(dead_code)]
#[path = "../damage.rs"]
mod damage;
#[allow(dead_code)]
#[path = "../dose.rs"]
mod dose;
#[allow(dead_code)]
#[path = "../frames.rs"]
mod frames;
#[allow(dead_code)]
#[path = "../parameters.rs"]
mod parameters;
#[path = "../../../examples/pod1.rs"]
mod pod1;
#[allow(dead_code)]
#[path = "../rng.rs"]
mod rng;
#[allow(dead_code)]
#[path = "../season.rs"]
mod season;
#[allow(dead_code)]
#[path = "../trees.rs"]
mod trees;
#[allow(dead_code)]
#[path = "../turns.rs"]
mod turns;
#[allow(dead_code)]
#[path = "../warmth.rs"]
mod warmth;
#[path = "../words.rs"]
mod words;

mod accounts;
mod bench;
mod counts;
mod feeding;
mod layout;
mod lent;
mod lists;
mod moves;
mod possible;
mod states;
mod texts;
mod writers;

use bench::{Bench, Difference};
use counts::{Counts, ENOUGH};
use rng::Rng;
use std::process::exit;
use std::time::Instant;
use words::Run;

/// Where neither lists nor seconds are given.
const FEW: u64 = 1000;

fn main() {
    let (run, list) = arguments().unwrap_or_else(|wrong| {
        eprintln!("calls: {wrong}\nusage: calls [--seed S] [--lists N] [--seconds T] [--list K]");
        exit(2);
    });
    if let Some(number) = list {
        say(run.seed, number);
    }
    println!("calls: {}", run.said());
    let started = Instant::now();
    let mut bench = Bench::new(Counts::default(), false);
    let mut number = 0;
    while number < run.most && (number % 64 > 0 || started.elapsed().as_secs() < run.seconds) {
        if lists::run(&mut bench, &mut Rng::new(run.seed, number)).is_err() {
            say(run.seed, number);
        }
        number += 1;
    }
    print!("calls: the answers by call, each row with its count\n{}", bench.counts.table());
    let lacking = bench.counts.lacking();
    if number >= ENOUGH && !lacking.is_empty() {
        println!("calls: these answers never came up: {}", lacking.join(", "));
        exit(1);
    }
    let elapsed = started.elapsed().as_secs_f64();
    println!(
        "calls: {number} lists in {elapsed:.1} s, {:.0} a second, ok",
        number as f64 / elapsed
    );
}

/// Makes one list again, prints its calls and how the last differs, and ends.
fn say(seed: u64, number: u64) -> ! {
    let mut bench = Bench::new(Counts::default(), true);
    let answer = lists::run(&mut bench, &mut Rng::new(seed, number));
    println!("calls: seed {seed}, list {number}");
    for call in bench.said() {
        println!("    {call}");
    }
    match answer {
        Ok(()) => {
            println!("calls: all of them right");
            exit(0);
        }
        Err(Difference { expected, got }) => {
            println!("expected {expected}\ngot      {got}\ncalls: a difference in the last call");
            exit(1);
        }
    }
}

/// How long the run goes on, and the list that alone is made, if there is one.
fn arguments() -> Result<(Run, Option<u64>), String> {
    let mut list = None;
    let run = Run::of_words("lists", FEW, |word, words| match word {
        "--list" => words::number(word, words).map(|number| list = Some(number)),
        _ => Err(format!("{word} is unknown")),
    })?;
    Ok((run, list))
}

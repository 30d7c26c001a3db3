//! The words that both programs take: where a run begins, and how long it goes on.

use std::env::Args;
use std::iter::Skip;

const SEED: u64 = 20260701;

/// Those behind a word.
pub type Words = Skip<Args>;

/// So many cases or lists of a seed, or so many seconds, whichever ends first.
pub struct Run {
    /// What is counted.
    counted: &'static str,
    pub seed: u64,
    pub most: u64,
    pub seconds: u64,
}

impl Run {
    /// What the words say: `few` of what is counted where they give neither a number of it nor
    /// seconds. What is no word of a run goes to `other`.
    pub fn of_words(
        counted: &'static str,
        few: u64,
        mut other: impl FnMut(&str, &mut Words) -> Result<(), String>,
    ) -> Result<Run, String> {
        let mut run = Run { counted, seed: SEED, most: u64::MAX, seconds: u64::MAX };
        let mut words = std::env::args().skip(1);
        while let Some(word) = words.next() {
            match word.strip_prefix("--") {
                Some("seed") => run.seed = number(&word, &mut words)?,
                Some("seconds") => run.seconds = number(&word, &mut words)?,
                Some(name) if name == counted => run.most = number(&word, &mut words)?,
                _ => other(&word, &mut words)?,
            }
        }
        if run.most == u64::MAX && run.seconds == u64::MAX {
            run.most = few;
        }
        Ok(run)
    }

    pub fn said(&self) -> String {
        let Run { counted, seed, .. } = self;
        let [most, seconds] = [self.most, self.seconds].map(limit);
        format!("seed {seed}, {counted} {most}, seconds {seconds}")
    }
}

/// The number behind a word.
pub fn number(word: &str, words: &mut Words) -> Result<u64, String> {
    words.next().and_then(|number| number.parse().ok()).ok_or(format!("{word} needs a number"))
}

fn limit(number: u64) -> String {
    if number == u64::MAX {
        "any".into()
    } else {
        number.to_string()
    }
}

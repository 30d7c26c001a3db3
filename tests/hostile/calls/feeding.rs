//! What a call must leave of an account: a line or an hour of floats to any bytes, and a trial
//! taken (docs/SPECIFICATION.md, "Account", "Loggers that hold floats", "Trials").

use crate::account::{limits, read, Frame, Sums};
use crate::dose::SLACK;
use crate::frames::{Readings, NEWEST};
use crate::layout::*;
use crate::possible::is_impossible;

/// An accepted frame: the account that follows but for its dose, and what the frame adds to that.
pub struct Step {
    account: Account,
    added: Sums,
}

/// The account that row 13 lets pass.
pub fn possible(bytes: &[u8]) -> Result<Account, u32> {
    Account::taken_up(bytes).filter(|account| !is_impossible(account)).ok_or(13)
}

fn entered(account: &Account, frame: Frame) -> Result<Step, u32> {
    let mut book = account.book();
    book.feed(frame)?;
    Ok(Step { account: account.after(&book), added: book.figures.sums })
}

pub fn line_fed(bytes: &[u8], line: &[u8]) -> Result<Step, u32> {
    let account = possible(bytes)?;
    entered(&account, read(NEWEST, line)?)
}

/// A line to an account that row 13 lets pass.
pub fn account_fed(account: &Account, line: &[u8]) -> Result<Step, u32> {
    entered(account, read(NEWEST, line)?)
}

/// An hour of floats, in the order of the frame.
#[derive(Clone, Copy)]
pub struct Floats {
    pub day: u16,
    pub hour: u8,
    pub readings: [f32; 7],
}

impl Floats {
    fn frame(&self, values: [i64; 8]) -> Frame {
        Frame::Hour {
            day: self.day as i64,
            hour: self.hour as i64,
            readings: Readings { kind: 2, values },
        }
    }

    fn first_broken(&self) -> Option<usize> {
        self.readings.iter().position(|reading| !reading.is_finite() || reading.fract() != 0.0)
    }
}

/// Rows 13, 4, 15, 9, which look at no reading; 26; 18, 10.
pub fn floats_fed(bytes: &[u8], floats: &Floats) -> Result<Step, u32> {
    let account = possible(bytes)?;
    entered(&account, floats.frame([0; 8]))?;
    if let Some(field) = floats.first_broken() {
        return Err(26 + 256 * (field as u32 + 1));
    }
    let mut values = [0; 8];
    for (value, reading) in values.iter_mut().zip(floats.readings) {
        *value = reading as i64; // out of an i64's range is out of every field's
    }
    entered(&account, floats.frame(values))
}

impl Step {
    /// The account that follows, its dose as the part has it, where that is right.
    pub fn settled(&self, part: &[u8]) -> Result<Account, String> {
        let got = Account::taken_up(part).ok_or("bytes that hold no account")?;
        let mut account = self.account;
        let [lower, upper] = [LOWER, UPPER].map(|at| got[at] - account[at]);
        if let Some(why) = self.wrong_dose(lower, upper) {
            return Err(format!(
                "{why}: {lower} and {upper} were added, the dose is {:?}",
                self.added.dose
            ));
        }
        (account[LOWER], account[UPPER]) = (got[LOWER], got[UPPER]);
        Ok(account)
    }

    /// Why two added numbers are not those of the frame.
    fn wrong_dose(&self, lower: i128, upper: i128) -> Option<&'static str> {
        let Sums { counted, missing, dose: [low, high], .. } = self.added;
        if counted == 0 {
            return (lower != 0 || upper != 0).then_some("not counted");
        }
        let (most, gap) = limits(self.account[TREE] as i64);
        let is_apart = missing == 0 && upper - lower > gap as i128;
        if lower < 0 || lower as f64 > low + SLACK {
            Some("lower is not 0 to the dose")
        } else if (upper as f64) < high - SLACK
            || upper as f64 > high + gap as f64 + SLACK
            || upper > most as i128
        {
            Some("upper is under the dose or too far above it")
        } else {
            is_apart.then_some("lower and upper are too far apart")
        }
    }
}

// ---- trials

pub const TRIAL: usize = 2 + 2 * SIZE;

/// The two accounts of a trial's bytes.
pub const TRIED: std::ops::Range<usize> = 2..2 + SIZE;
pub const FOLLOWING: std::ops::Range<usize> = 2 + SIZE..TRIAL;

/// A row's code, or 0.
fn is_code(code: u32) -> bool {
    let (row, field) = (code & 255, code >> 8);
    code == 0 || (1..=26).contains(&row) && (field == 0 || row == 10 || row == 26)
}

/// The account after a trial was taken with it.
pub fn taken(bytes: &[u8], trial: &[u8]) -> Result<Account, u32> {
    let account = Account::taken_up(bytes).ok_or(13u32)?;
    let trial = trial.get(..TRIAL).ok_or(13u32)?;
    let code = (trial[0] as u32) << 8 | trial[1] as u32;
    let held = |range| Account::taken_up(&trial[range]).ok_or(13u32);
    let (tried, following) = (held(TRIED)?, held(FOLLOWING)?);
    if !is_code(code) || is_impossible(&account) {
        return Err(13);
    }
    if account != tried {
        return Err(16);
    }
    if code != 0 {
        return Err(code);
    }
    if is_impossible(&following) {
        Err(13)
    } else {
        Ok(following)
    }
}

//! The calls on an account and on a list of accounts, each held to the account's own model and to
//! the other calls (docs/SPECIFICATION.md, "Trials", "Several trees, one reading", "Loggers that
//! hold floats").

use crate::account::verdict;
use crate::bench::*;
use crate::feeding::*;
use crate::frames::Readings;
use crate::layout::*;
use crate::lent::Lent;
use crate::pod1;
use crate::pod1::archive::*;
use crate::season::hour_line;
use crate::trees::soil_most;

const VERDICTS: [&str; 4] = ["none", "undecided", "exceeded", "below"];

/// What reading an account's bytes gives.
fn readout(bytes: &[u8]) -> Readout {
    let account = match possible(bytes) {
        Ok(account) => account,
        Err(code) => return Readout { code, ..Readout::default() },
    };
    let word = verdict_of(&account);
    Readout {
        code: 0,
        verdict: VERDICTS.iter().position(|&verdict| verdict == word).unwrap_or(0) as u32,
        hours: account[HOURS] as u32,
        counted: account[COUNTED] as u32,
        missing: account[MISSING] as u32,
        least: account[LEAST] as u32,
        most: account[MOST] as u32,
        lower: account[LOWER] as u64,
        upper: account[UPPER] as u64,
    }
}

fn verdict_of(account: &Account) -> &'static str {
    match account[PHASE] {
        FRESH => VERDICTS[0],
        _ => verdict(account[LOWER] as i64, account[UPPER] as i64, account[LEVEL] as i64),
    }
}

/// The account's line as the report prints it.
fn line_of(account: &Account) -> String {
    let [hours, counted, lower, upper, least, most] =
        [HOURS, COUNTED, LOWER, UPPER, LEAST, MOST].map(|at| account[at]);
    format!("{hours} {counted} {lower} {upper} {least} {most} {}\n", verdict_of(account))
}

/// The line of bytes that hold an account.
pub fn line_of_bytes(bytes: &[u8]) -> String {
    Account::taken_up(bytes).map(|account| line_of(&account)).unwrap_or_default()
}

/// The bytes that a step leaves, its dose as the part has it.
fn settled(step: &Step, before: &[u8], part: &[u8]) -> Held<Vec<u8>> {
    let account = step.settled(part).map_err(|why| Difference { expected: why, got: hex(part) })?;
    let mut bytes = before.to_vec();
    account.put(&mut bytes);
    Ok(bytes)
}

/// The code of an answer.
fn code_of<T>(answer: &Result<T, u32>) -> u32 {
    answer.as_ref().err().copied().unwrap_or(0)
}

/// Feeding as it is, held to nothing: the code and the account's bytes after it.
pub fn fed_alone(account: &[u8], line: &[u8]) -> (u32, Vec<u8>) {
    let mut bytes = account.to_vec();
    let code = unsafe { pod1_feed(bytes.as_mut_ptr(), bytes.len(), line.as_ptr(), line.len()) };
    (code, bytes)
}

/// A code and an account's bytes after another call than feeding: those of feeding the line.
fn same_as_fed(account: &[u8], line: &[u8], code: u32, after: &[u8]) -> Held<()> {
    let alone = fed_alone(account, line);
    if (alone.0, &alone.1[..]) == (code, after) {
        return Ok(());
    }
    let described = |code, bytes| format!("code {code}, account {}", hex(bytes));
    Err(Difference {
        expected: format!("as by feeding: {}", described(alone.0, &alone.1)),
        got: described(code, after),
    })
}

impl Bench {
    pub fn fresh(&mut self, account: &mut [u8]) -> Held<()> {
        self.say(|| format!("pod1_fresh account {}", hex(account)));
        let mut lent = self.lend(account);
        let code = unsafe { pod1_fresh(lent.pointer(), lent.length()) };
        self.counts.add("fresh", code);
        same(if account.len() < SIZE { 12 } else { 0 }, code)?;
        if code == 0 {
            Account::fresh().put(account);
        }
        same_bytes("account", account, &lent)
    }

    /// Feeds, and takes the account's bytes over.
    pub fn feed(&mut self, account: &mut Vec<u8>, line: &[u8]) -> Held<u32> {
        self.say(|| format!("pod1_feed account {} line {}", hex(account), shown(line)));
        let (code, lent, lent_line) =
            self.lend_two(account, line, |a, n, b, m| unsafe { pod1_feed(a, n, b, m) });
        self.counts.add("feed", code);
        same_bytes("line", line, &lent_line)?;
        self.step(line_fed(account, line), code, account, &lent)
    }

    /// A code and the bytes after it, held to the model's step.
    fn step(
        &mut self,
        step: Result<Step, u32>,
        code: u32,
        account: &mut Vec<u8>,
        lent: &Lent,
    ) -> Held<u32> {
        same(code_of(&step), code)?;
        if let Ok(step) = &step {
            *account = settled(step, account, lent.bytes().unwrap_or_default())?;
            if account[1] == CLOSED as u8 {
                self.counts.add("closed", 0);
            }
        }
        same_bytes("account", account, lent)?;
        Ok(code)
    }

    pub fn feed_floats(&mut self, account: &mut Vec<u8>, floats: &Floats) -> Held<u32> {
        let Floats { day, hour, readings } = *floats;
        let bits = readings.map(f32::to_bits);
        self.say(|| {
            let bytes = hex(account);
            let place = format!("account {bytes} day {day} hour {hour}");
            format!("pod1_feed_floats {place} readings {readings:?}, as bits {bits:08X?}")
        });
        let mut lent = self.lend(account);
        let before = account.clone();
        let [ozone, ppfd, radiation, temperature, vpd, wind, soil] = readings;
        let readings = pod1::Floats { ozone, ppfd, radiation, temperature, vpd, wind, soil };
        let code = unsafe { pod1_feed_floats(lent.pointer(), lent.length(), day, hour, readings) };
        self.counts.add("floats", code);
        self.step(floats_fed(account, floats), code, account, &lent)?;
        if let Some(line) = said_by(floats) {
            same_as_fed(&before, line.as_bytes(), code, account)?;
        }
        Ok(code)
    }

    pub fn read(&mut self, account: &[u8]) -> Held<()> {
        self.say(|| format!("pod1_read account {}", hex(account)));
        let mut lent = self.lend(account);
        let got = unsafe { pod1_read(lent.pointer(), lent.length()) };
        self.counts.add("read", got.code);
        if got.code == 0 {
            self.counts.add("verdict", got.verdict);
        }
        same(readout(account), got)?;
        same_bytes("account", account, &lent)
    }

    /// An account's line into a buffer.
    pub fn line(&mut self, account: &[u8], buffer: &[u8]) -> Held<()> {
        self.say(|| format!("pod1_line account {} buffer {}", hex(account), hex(buffer)));
        let (got, lent, lent_buffer) =
            self.lend_two(account, buffer, |a, n, b, m| unsafe { pod1_line(a, n, b, m) });
        self.counts.add("line", got.code);
        same_bytes("account", account, &lent)?;
        let line = possible(account).map(|account| line_of(&account).into_bytes());
        held_printed(line, buffer, got, &lent_buffer)
    }

    /// Tries a line, and takes the trial's bytes over.
    pub fn trial(&mut self, account: &[u8], line: &[u8], trial: &mut [u8]) -> Held<()> {
        self.say(|| {
            format!("pod1_trial account {} line {} trial {}", hex(account), shown(line), hex(trial))
        });
        let (mut lent, mut lent_line, mut lent_trial) =
            (self.lend(account), self.lend(line), self.lend(trial));
        let (account_at, line_at, trial_at) =
            (lent.pointer(), lent_line.pointer(), lent_trial.pointer());
        let got = unsafe {
            pod1_trial(
                account_at,
                lent.length(),
                line_at,
                lent_line.length(),
                trial_at,
                lent_trial.length(),
            )
        };
        self.counts.add("trial", got.code);
        same_bytes("account", account, &lent)?;
        same_bytes("line", line, &lent_line)?;
        match Account::taken_up(account) {
            None => same(Tried { code: 13, ..Tried::default() }, got)?,
            Some(_) if trial.len() < TRIAL => same(Tried { code: 12, ..Tried::default() }, got)?,
            Some(_) => {
                self.counts.add("answer of a trial", got.answer);
                held_trial(account, line, trial, got, &lent_trial)?;
            }
        }
        same_bytes("trial", trial, &lent_trial)
    }

    pub fn take(&mut self, account: &mut Vec<u8>, trial: &[u8]) -> Held<u32> {
        self.say(|| format!("pod1_take account {} trial {}", hex(account), hex(trial)));
        let (code, lent, lent_trial) =
            self.lend_two(account, trial, |a, n, b, m| unsafe { pod1_take(a, n, b, m) });
        self.counts.add("take", code);
        let expected = taken(account, trial);
        same(code_of(&expected), code)?;
        if let Ok(following) = expected {
            following.put(account);
        }
        same_bytes("trial", trial, &lent_trial)?;
        same_bytes("account", account, &lent)?;
        Ok(code)
    }

    /// Feeds a list of accounts, and takes their bytes over.
    pub fn feed_all(&mut self, accounts: &mut Vec<u8>, line: &[u8]) -> Held<u32> {
        self.say(|| format!("pod1_feed_all accounts {} line {}", hex(accounts), shown(line)));
        let (code, lent, lent_line) =
            self.lend_two(accounts, line, |a, n, b, m| unsafe { pod1_feed_all(a, n, b, m) });
        self.counts.add("feed all", code);
        same_bytes("line", line, &lent_line)?;
        let steps = all_fed(accounts, line);
        same(code_of(&steps), code)?;
        let got = lent.bytes().unwrap_or_default();
        for (n, step) in steps.iter().flatten().enumerate() {
            let own = n * SIZE..(n + 1) * SIZE;
            let after =
                settled(step, &accounts[own.clone()], got.get(own.clone()).unwrap_or_default())?;
            same_as_fed(&accounts[own.clone()], line, 0, &after)?;
            accounts[own].copy_from_slice(&after);
        }
        same_bytes("accounts", accounts, &lent)?;
        Ok(code)
    }
}

/// A printed line, or the refusal before row 12; a refused call leaves the buffer.
pub fn held_printed(
    line: Result<Vec<u8>, u32>,
    buffer: &[u8],
    got: Printed,
    lent: &Lent,
) -> Held<()> {
    let line = line.and_then(|line| if buffer.len() < line.len() { Err(12) } else { Ok(line) });
    let mut after = buffer.to_vec();
    let expected = match &line {
        Ok(line) => {
            after[..line.len()].copy_from_slice(line);
            Printed { code: 0, length: line.len() as u64 }
        }
        Err(code) => Printed { code: *code, length: 0 },
    };
    same(expected, got)?;
    same_bytes("buffer", &after, lent)
}

/// The answer, the trial's bytes and the reading of a trial that was made; and the same by feeding.
fn held_trial(account: &[u8], line: &[u8], trial: &mut [u8], got: Tried, lent: &Lent) -> Held<()> {
    let tried = &account[..SIZE];
    let step = line_fed(account, line);
    let answer = code_of(&step);
    let written = lent.bytes().unwrap_or_default();
    let following = match &step {
        Ok(step) => settled(step, tried, written.get(FOLLOWING).unwrap_or_default())?,
        Err(_) => tried.to_vec(),
    };
    same(Tried { code: 0, answer, reading: readout(&following) }, got)?;
    same_as_fed(tried, line, answer, &following)?;
    trial[0] = (answer >> 8) as u8;
    trial[1] = answer as u8;
    trial[TRIED].copy_from_slice(tried);
    trial[FOLLOWING].copy_from_slice(&following);
    Ok(())
}

/// The kind 02 line of whole floats that its two bytes hold; ozone 65535 is FFFF there too.
fn said_by(floats: &Floats) -> Option<String> {
    let mut values = [0; 8];
    for (at, reading) in floats.readings.into_iter().enumerate() {
        let range = if at == 3 { -32768.0..=32767.0 } else { 0.0..=65535.0 };
        if reading.fract() != 0.0 || !range.contains(&reading) {
            return None;
        }
        values[at] = reading as i64;
    }
    Some(hour_line(floats.day as i64, floats.hour as i64, &Readings { kind: 2, values }))
}

/// What a list must agree in: days, first, last, hours, phase, ceiling, kind and the soil's
/// measure.
fn is_alike(one: &Account, other: &Account) -> bool {
    // fresh ones have no tree, and one measure
    let measure = |account: &Account| soil_most(account[TREE] as i64);
    [DAYS, FIRST, LAST, HOURS, PHASE, CEILING, KIND].iter().all(|&at| one[at] == other[at])
        && measure(one) == measure(other)
}

/// The steps of a list of accounts, all or none: rows 22, 13, 23, then that of the first one that
/// refuses.
fn all_fed(bytes: &[u8], line: &[u8]) -> Result<Vec<Step>, u32> {
    let count = bytes.len() / SIZE;
    if !(1..=6).contains(&count) {
        return Err(22);
    }
    let accounts = bytes.chunks_exact(SIZE).map(possible).collect::<Result<Vec<_>, _>>()?;
    if accounts.iter().any(|account| !is_alike(&accounts[0], account)) {
        return Err(23);
    }
    accounts.iter().map(|account| account_fed(account, line)).collect()
}

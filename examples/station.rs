//! A station that outlives a power cut, as examples/station.c is: the same command, the same file,
//! so that each takes up what the other stored.
//!
//!     station STATE <SEASON
//!
//! Exit status 1 where a line is refused, 2 where a file cannot be used.
mod pod1;

use pod1::Account;
use std::ffi::{OsStr, OsString};
use std::fs::{self, File};
use std::io::{self, BufRead, ErrorKind, Write};
use std::process::ExitCode;

/// The account, and the number of lines that it has had: in the file its bytes, and behind them the
/// number, high byte first.
struct State {
    account: Account,
    lines: u32,
}

const COUNT: usize = 4;

impl State {
    /// Only where there is no file a season is begun: one that cannot be read, or holds no account,
    /// is never overwritten.
    fn take_up(name: &OsStr) -> Option<State> {
        let bytes = match fs::read(name) {
            Ok(bytes) => bytes,
            Err(e) if e.kind() == ErrorKind::NotFound => {
                return Some(State { account: Account::fresh(), lines: 0 })
            }
            Err(_) => return None,
        };
        let stored: [u8; pod1::ACCOUNT + COUNT] = bytes.try_into().ok()?;
        let (account, count) = stored.split_at(pod1::ACCOUNT);
        let account = Account::from_bytes(account.try_into().ok()?).ok()?;
        Some(State { account, lines: u32::from_be_bytes(count.try_into().ok()?) })
    }

    /// Written beside, then renamed: the file holds the account before a line or the one after it,
    /// never a part of one.
    fn store(&self, name: &OsStr) -> io::Result<()> {
        let mut beside = OsString::from(name);
        beside.push(".new");
        let mut file = File::create(&beside)?;
        file.write_all(&[&self.account.bytes()[..], &self.lines.to_be_bytes()].concat())?;
        file.sync_all()?;
        fs::rename(beside, name)
    }
}

/// Why the station stops: what it says, and its exit status.
struct Stop(String, u8);

fn unusable(e: io::Error) -> Stop {
    Stop(format!("station: {e}"), 2)
}

fn run() -> Result<(), Stop> {
    let words: Vec<OsString> = std::env::args_os().collect();
    let [_, name] = &words[..] else {
        return Err(Stop("usage: station STATE <SEASON".to_string(), 2));
    };
    let Some(mut state) = State::take_up(name) else {
        return Err(Stop(
            format!("station: {} holds no account that can be taken up", name.to_string_lossy()),
            2,
        ));
    };
    for line in io::stdin().lock().split(b'\n').skip(state.lines as usize) {
        let line = line.map_err(unusable)?;
        let bare = line.strip_suffix(b"\r").unwrap_or(&line); // and without its line feed
        state.account.feed(bare).map_err(|r| {
            let said = format!(
                "station: line {} is refused by row {}, field {}",
                state.lines + 1,
                r.row as u32,
                r.field
            );
            Stop(said, 1)
        })?;
        state.lines += 1;
        state.store(name).map_err(unusable)?;
    }
    let mut buffer = [0; pod1::LINE];
    let line = state.account.line(&mut buffer).expect("an account that was taken up has a line");
    io::stdout().write_all(line).map_err(unusable)
}

fn main() -> ExitCode {
    match run() {
        Ok(()) => ExitCode::SUCCESS,
        Err(Stop(said, status)) => {
            eprintln!("{said}");
            ExitCode::from(status)
        }
    }
}

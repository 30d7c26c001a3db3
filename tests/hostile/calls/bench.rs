//! A list of calls on the part: each said where the list is printed, held to what it must answer,
//! and counted.

use crate::counts::Counts;
use crate::lent::Lent;
use std::fmt::Debug;

pub struct Difference {
    pub expected: String,
    pub got: String,
}

/// What a call gave, or how that differs.
pub type Held<T> = Result<T, Difference>;

pub struct Bench {
    pub counts: Counts,
    /// The calls of this list, where they are printed.
    said: Option<Vec<String>>,
    /// Whether no bytes are lent as null.
    null: bool,
}

impl Bench {
    pub fn new(counts: Counts, is_said: bool) -> Bench {
        Bench { counts, said: is_said.then(Vec::new), null: false }
    }

    pub fn start(&mut self, null: bool) {
        self.null = null;
    }

    pub fn said(self) -> Vec<String> {
        self.said.unwrap_or_default()
    }

    pub fn say(&mut self, call: impl FnOnce() -> String) {
        if let Some(said) = &mut self.said {
            said.push(call());
        }
    }

    pub fn lend(&self, bytes: &[u8]) -> Lent {
        Lent::of(bytes, self.null)
    }

    /// Lends bytes in two places to a call: what it answers, and the places as it leaves them.
    pub fn lend_two<T>(
        &self,
        one: &[u8],
        other: &[u8],
        call: impl FnOnce(*mut u8, usize, *mut u8, usize) -> T,
    ) -> (T, Lent, Lent) {
        let (mut one, mut other) = (self.lend(one), self.lend(other));
        let answer = call(one.pointer(), one.length(), other.pointer(), other.length());
        (answer, one, other)
    }
}

pub fn hex(bytes: &[u8]) -> String {
    let digits: String = bytes.iter().map(|byte| format!("{byte:02X}")).collect();
    format!("{digits} ({} bytes)", bytes.len())
}

/// A line or a text, bytes that do not print by their number.
pub fn shown(text: &[u8]) -> String {
    format!("\"{}\"", text.escape_ascii())
}

pub fn same<T: PartialEq + Debug>(expected: T, got: T) -> Held<()> {
    if expected == got {
        return Ok(());
    }
    Err(Difference { expected: format!("{expected:?}"), got: format!("{got:?}") })
}

/// Bytes that are lent, as a call leaves them.
pub fn same_bytes(what: &str, expected: &[u8], lent: &Lent) -> Held<()> {
    match lent.bytes() {
        Some(got) if got == expected => Ok(()),
        Some(got) => {
            Err(Difference { expected: format!("{what} {}", hex(expected)), got: hex(got) })
        }
        None => Err(Difference {
            expected: format!("{what} alone is written"),
            got: "bytes before or behind it were touched".into(),
        }),
    }
}

//! The answers that came up, by call and row; and those that must, in a run of some size.

use std::collections::BTreeMap;

/// Lists of calls that bring up every answer.
pub const ENOUGH: u64 = 50_000;

/// Rows of a line but for row 10.
const LINE: &[u32] = &[1, 2, 3, 4, 5, 6, 7, 8, 9, 11, 15, 17, 18, 24, 25];

/// Each call with its rows, and the fields that row 10 or 26 names in it.
#[rustfmt::skip]
const CALLS: [(&str, &[&[u32]], &[(u32, u32)]); 26] = [
    ("fresh", &[&[0, 12]], &[]),
    ("feed", &[&[0, 13], LINE], &[(10, 8)]),
    ("floats", &[&[0, 13, 4, 15, 9, 18]], &[(10, 7), (26, 7)]),
    ("read", &[&[0, 13]], &[]),
    ("line", &[&[0, 12, 13]], &[]),
    ("trial", &[&[0, 12, 13]], &[]),
    ("answer of a trial", &[&[0, 13], LINE], &[(10, 8)]),
    ("take", &[&[0, 12, 13, 14, 16, 19, 20, 21, 22, 23], LINE], &[(10, 8), (26, 7)]),
    ("feed all", &[&[0, 13, 22, 23], LINE], &[(10, 8)]),
    ("report", &[&[0, 12]], &[]),
    ("compare, first", &[LINE, &[10]], &[]),
    ("compare, second", &[LINE, &[10]], &[]),
    ("compare", &[&[0, 19]], &[]),
    ("stretch", &[&[0, 10, 20, 21], LINE], &[]),
    ("stretch, too few days", &[&[0]], &[]),
    ("write header", &[&[0, 5, 6, 7, 8, 12]], &[]),
    ("write place", &[&[0, 5, 6, 8, 12, 14]], &[]),
    ("write hour", &[&[0, 12]], &[(10, 7)]),
    ("write pressure", &[&[0, 12]], &[(10, 8)]),
    ("write humidity", &[&[0, 12]], &[(10, 7)]),
    ("write end", &[&[0, 12]], &[]),
    ("write ceiling", &[&[0, 12, 17]], &[]),
    ("write parameters", &[&[0, 12, 24]], &[]),
    ("write warmth", &[&[0, 12, 25]], &[]),
    ("verdict", &[&[0, 1, 2, 3]], &[]),
    ("closed", &[&[0]], &[]),
];

#[derive(Default)]
pub struct Counts {
    answers: BTreeMap<(&'static str, u32), u64>,
}

impl Counts {
    pub fn add(&mut self, call: &'static str, code: u32) {
        *self.answers.entry((call, code)).or_insert(0) += 1;
    }

    /// A line for each call: its rows with their counts.
    pub fn table(&self) -> String {
        CALLS.iter().map(|(call, _, _)| format!("    {call}: {}\n", self.rows(call))).collect()
    }

    fn rows(&self, call: &str) -> String {
        let mut rows = BTreeMap::new();
        for ((_, code), count) in self.answers.iter().filter(|((name, _), _)| *name == call) {
            *rows.entry(code & 255).or_insert(0) += count;
        }
        rows.iter().map(|(row, count)| format!("{row} {count}")).collect::<Vec<_>>().join(", ")
    }

    /// The answers that must come up and did not.
    pub fn lacking(&self) -> Vec<String> {
        let due = CALLS.iter().flat_map(|(call, rows, fields)| {
            let named = fields
                .iter()
                .flat_map(|&(row, most)| (1..=most).map(move |field| row + 256 * field));
            rows.concat().into_iter().chain(named).map(move |code| (*call, code))
        });
        due.filter(|answer| !self.answers.contains_key(answer))
            .map(|(call, code)| format!("{call} row {} field {}", code & 255, code >> 8))
            .collect()
    }
}

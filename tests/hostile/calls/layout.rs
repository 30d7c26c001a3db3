//! The account as bytes: its numbers at fixed places, each high byte first.
//!
//!     version 1 | phase 1 | kind 1 | hours 2 | counted 2 | missing 2 | lower 8 | upper 8 |
//!     least 4 | most 4 | sum 4 | total 2 | tree 1 | days 2 | first 2 | last 2 | level 2 |
//!     ceiling 2 | rise 2 | fall 2 | end 2 | sixteen parameters, 2 each      88 bytes

use crate::account::{Book, Header};
use crate::frames::NEWEST;
use crate::parameters::{Parameters, TMAX, TMIN};
use crate::warmth::Warmth;
use std::ops::{Index, IndexMut};

pub const SIZE: usize = 88;
pub const NUMBERS: usize = 37;

#[rustfmt::skip]
pub const WIDTHS: [usize; NUMBERS] = [
    1, 1, 1, 2, 2, 2, 8, 8, 4, 4, 4, 2,
    1, 2, 2, 2, 2, 2, 2, 2, 2,
    2, 2, 2, 2, 2, 2, 2, 2, 2, 2, 2, 2, 2, 2, 2, 2,
];

pub const VERSION: usize = 0;
pub const PHASE: usize = 1;
pub const KIND: usize = 2;
pub const HOURS: usize = 3;
pub const COUNTED: usize = 4;
pub const MISSING: usize = 5;
pub const LOWER: usize = 6;
pub const UPPER: usize = 7;
pub const LEAST: usize = 8;
pub const MOST: usize = 9;
pub const SUM: usize = 10;
/// In two's complement.
pub const TOTAL: usize = 11;
pub const TREE: usize = 12;
pub const DAYS: usize = 13;
pub const FIRST: usize = 14;
pub const LAST: usize = 15;
pub const LEVEL: usize = 16;
pub const CEILING: usize = 17;
pub const RISE: usize = 18;
pub const FALL: usize = 19;
pub const END: usize = 20;
pub const OWN: usize = 21;

pub const FRESH: i128 = 0;
pub const OPEN: i128 = 1;
pub const CLOSED: i128 = 2;

/// An account's numbers in the order of its bytes, those in two's complement with their sign.
#[derive(Clone, Copy, PartialEq, Debug)]
pub struct Account {
    numbers: [i128; NUMBERS],
}

impl Index<usize> for Account {
    type Output = i128;
    fn index(&self, at: usize) -> &i128 {
        &self.numbers[at]
    }
}

impl IndexMut<usize> for Account {
    fn index_mut(&mut self, at: usize) -> &mut i128 {
        &mut self.numbers[at]
    }
}

fn is_signed(at: usize) -> bool {
    at == TOTAL || (OWN + TMIN..=OWN + TMAX).contains(&at)
}

/// The number that so many of its bits are.
fn cut(at: usize, number: i128) -> i128 {
    let bits = 8 * WIDTHS[at];
    let number = number & ((1 << bits) - 1);
    if is_signed(at) && number >> (bits - 1) == 1 {
        number - (1 << bits)
    } else {
        number
    }
}

impl Account {
    pub fn fresh() -> Account {
        let mut fresh = Account { numbers: [0; NUMBERS] };
        fresh[VERSION] = 1;
        fresh
    }

    /// What any 88 bytes are.
    fn of(bytes: &[u8]) -> Account {
        let mut account = Account::fresh();
        let mut start = 0;
        for at in 0..NUMBERS {
            let digits = &bytes[start..start + WIDTHS[at]];
            account[at] =
                cut(at, digits.iter().fold(0, |number, &byte| number << 8 | byte as i128));
            start += WIDTHS[at];
        }
        account
    }

    /// The account at the front of bytes: none where they are too few, or of another version, phase
    /// or kind.
    pub fn taken_up(bytes: &[u8]) -> Option<Account> {
        let account = Account::of(bytes.get(..SIZE)?);
        let is_held = account[VERSION] == 1
            && account[PHASE] <= CLOSED
            && [0, 2, 4, 5].contains(&account[KIND]);
        is_held.then_some(account)
    }

    pub fn stored(&self) -> Vec<u8> {
        let mut bytes = Vec::with_capacity(SIZE);
        for at in 0..NUMBERS {
            bytes.extend_from_slice(&self[at].to_be_bytes()[16 - WIDTHS[at]..]);
        }
        bytes
    }

    /// Into the front of a longer buffer.
    pub fn put(&self, bytes: &mut [u8]) {
        bytes[..SIZE].copy_from_slice(&self.stored());
    }

    /// A number as far as its bytes hold it.
    pub fn set(&mut self, at: usize, number: i128) {
        self[at] = cut(at, number);
    }

    fn small(&self, at: usize) -> i64 {
        self[at] as i64
    }

    /// Some of them are not 0.
    fn parameters(&self) -> Option<Parameters> {
        let own = std::array::from_fn(|n| self.small(OWN + n));
        (own != [0; 16]).then_some(Parameters { numbers: own })
    }

    fn warmth(&self) -> Option<Warmth> {
        let [rise, fall, end] = [RISE, FALL, END].map(|at| self.small(at));
        (rise != 0 || fall != 0 || end != 0).then_some(Warmth { rise, fall, end })
    }

    /// With what follows it; a fresh account's too, all 0.
    pub fn header(&self) -> Header {
        let [tree, days, first, last, level] =
            [TREE, DAYS, FIRST, LAST, LEVEL].map(|at| self.small(at));
        Header { tree, days, first, last, level, own: self.parameters(), warmth: self.warmth() }
    }

    /// A book that takes the next frame as the account does; its sums are those that come from now
    /// on.
    pub fn book(&self) -> Book {
        let mut book = Book::new(NEWEST);
        book.header = (self[PHASE] != FRESH).then(|| self.header());
        book.ceiling = self.small(CEILING);
        book.kind = (self[KIND] != 0).then(|| self.small(KIND));
        book.closed = self[PHASE] == CLOSED;
        book.temperatures = [self.small(SUM), self.small(TOTAL)];
        book.figures.hours = self.small(HOURS);
        book
    }

    /// The account after the book took a frame; lower and upper stay.
    pub fn after(&self, book: &Book) -> Account {
        let mut after = *self;
        after[PHASE] = if book.closed { CLOSED } else { book.header.map_or(FRESH, |_| OPEN) };
        after[KIND] = book.kind.unwrap_or(0) as i128;
        after[CEILING] = book.ceiling as i128;
        let sums = &book.figures.sums;
        after[HOURS] = book.figures.hours as i128;
        for (at, added) in [
            (COUNTED, sums.counted),
            (MISSING, sums.missing),
            (LEAST, sums.aot40[0]),
            (MOST, sums.aot40[1]),
        ] {
            after[at] += added as i128;
        }
        if let Some(header) = book.header {
            after.enter(&header, book.temperatures);
        }
        after
    }

    fn enter(&mut self, header: &Header, temperatures: [i64; 2]) {
        let Header { tree, days, first, last, level, own, warmth } = *header;
        for (at, number) in
            [(TREE, tree), (DAYS, days), (FIRST, first), (LAST, last), (LEVEL, level)]
        {
            self[at] = number as i128;
        }
        for (n, number) in own.iter().flat_map(|own| own.numbers).enumerate() {
            self[OWN + n] = number as i128;
        }
        if let Some(Warmth { rise, fall, end }) = warmth {
            for (at, number) in [
                (RISE, rise),
                (FALL, fall),
                (END, end),
                (SUM, temperatures[0]),
                (TOTAL, temperatures[1]),
            ] {
                self[at] = number as i128;
            }
        }
    }
}

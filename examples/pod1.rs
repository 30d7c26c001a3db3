//! The part, safe from Rust: the calls of include/pod1.h, which says what each answers, over slices
//! in place of pointers and lengths. Copy this file, and have target/libpod1.a where the linker
//! looks: rustc -L target.
#![allow(dead_code)] // a program calls what it needs

/// The bytes of an account and of a trial.
pub const ACCOUNT: usize = 88;
const TRIAL: usize = 178;

/// Bytes that hold any frame's line, any account's line, and any report.
pub const FRAME: usize = 66;
pub const LINE: usize = 160;
pub const REPORT: usize = 600;

/// Ozone that is missing.
pub const MISSING: u16 = 65535;

/// The scratch bytes of a worst stretch of so many days.
pub const fn scratch(days: u16) -> usize {
    3 * days as usize
}

/// The rows by which a call is refused, by the numbers of docs/SPECIFICATION.md.
#[derive(Clone, Copy, Debug, PartialEq, Eq)]
pub enum Row {
    Length = 1,
    Digit = 2,
    Kind = 3,
    Turn = 4,
    Tree = 5,
    Year = 6,
    Period = 7,
    Level = 8,
    Due = 9,
    Range = 10,
    Count = 11,
    Buffer = 12,
    Impossible = 13,
    Place = 14,
    Mixed = 15,
    Tried = 16,
    Ceiling = 17,
    NoCeiling = 18,
    Unlike = 19,
    Days = 20,
    ShortScratch = 21,
    ListSize = 22,
    UnlikeAccounts = 23,
    Parameter = 24,
    Warmth = 25,
    Float = 26,
}

impl Row {
    /// Every row in the order of its number.
    #[rustfmt::skip]
    pub const ALL: [Row; 26] = [
        Row::Length, Row::Digit, Row::Kind, Row::Turn, Row::Tree, Row::Year, Row::Period,
        Row::Level, Row::Due, Row::Range, Row::Count, Row::Buffer, Row::Impossible, Row::Place,
        Row::Mixed, Row::Tried, Row::Ceiling, Row::NoCeiling, Row::Unlike, Row::Days,
        Row::ShortScratch, Row::ListSize, Row::UnlikeAccounts, Row::Parameter, Row::Warmth,
        Row::Float,
    ];
}

/// Why a call is refused: the row, and the reading that rows 10 and 26 name, 0 for every other row.
/// What the call would have changed is as it was.
#[derive(Clone, Copy, Debug, PartialEq, Eq)]
pub struct Refusal {
    pub row: Row,
    pub field: u32,
}

fn refusal(code: u32) -> Refusal {
    Refusal { row: Row::ALL[(code & 255) as usize - 1], field: code >> 8 }
}

fn accepted(code: u32) -> Result<(), Refusal> {
    if code == 0 {
        Ok(())
    } else {
        Err(refusal(code))
    }
}

/// A refused text: which one, 1 or 2, and its line from 1 on; both 0 where no line is at fault.
#[derive(Clone, Copy, Debug, PartialEq, Eq)]
pub struct TextRefusal {
    pub refusal: Refusal,
    pub text: u32,
    pub line: u64,
}

fn accepted_text(code: u32, text: u32, line: u64) -> Result<(), TextRefusal> {
    accepted(code).map_err(|refusal| TextRefusal { refusal, text, line })
}

#[derive(Clone, Copy, Debug, PartialEq, Eq)]
pub enum Verdict {
    None,
    Undecided,
    Exceeded,
    Below,
}

/// Hours accepted, those counted and those of them without ozone; AOT40 (least, most) in tenths of
/// ppb h; POD1 (lower, upper) in nmol m-2.
#[derive(Clone, Copy, Debug, PartialEq, Eq)]
pub struct Reading {
    pub hours: u32,
    pub counted: u32,
    pub missing: u32,
    pub least: u32,
    pub most: u32,
    pub lower: u64,
    pub upper: u64,
    pub verdict: Verdict,
}

/// What a comparison gives; `line` is that of the first hour that differs by more than the
/// tolerance, a part of the second text.
#[derive(Clone, Copy, Debug, PartialEq, Eq)]
pub struct Comparison<'a> {
    pub hours: u32,
    pub sum: u32,
    pub line: Option<&'a [u8]>,
}

#[derive(Clone, Copy, Debug, PartialEq, Eq)]
pub struct Stretch {
    pub sum: u32,
    pub day: u32,
}

/// An hour's readings as a logger holds them.
#[repr(C)]
#[derive(Clone, Copy, Debug)]
pub struct Floats {
    pub ozone: f32,
    pub ppfd: f32,
    pub radiation: f32,
    pub temperature: f32,
    pub vpd: f32,
    pub wind: f32,
    pub soil: f32,
}

/// An hour; `water` 0 says that `soil` is suction.
#[repr(C)]
#[derive(Clone, Copy, Debug)]
pub struct Hour {
    pub day: u16,
    pub hour: u8,
    pub water: u8,
    pub ozone: u16,
    pub ppfd: u16,
    pub radiation: u16,
    pub temperature: i16,
    pub vapour: u16,
    pub wind: u16,
    pub soil: u16,
}

/// The parameters of a laboratory's own tree.
#[repr(C)]
#[derive(Clone, Copy, Debug)]
pub struct Parameters {
    pub gmax: u16,
    pub fmin: u16,
    pub lighta: u16,
    pub tmin: i16,
    pub topt: i16,
    pub tmax: i16,
    pub vpdmax: u16,
    pub vpdmin: u16,
    pub soilmax: u16,
    pub soilmin: u16,
    pub leaf: u16,
    pub a: u16,
    pub e: u16,
    pub f1: u16,
    pub f4: u16,
    pub y: u16,
}

// ---- one account

/// A season's account: bytes that are the same on every machine, to keep in memory or in a file.
#[repr(transparent)]
#[derive(Clone, Debug, PartialEq, Eq)]
pub struct Account([u8; ACCOUNT]);

/// What a line would do to an account, and the reading that would follow; `Account::take` does it.
pub struct Trial {
    bytes: [u8; TRIAL],
    pub answer: Result<(), Refusal>,
    pub reading: Result<Reading, Refusal>,
}

impl Account {
    pub fn fresh() -> Account {
        let mut bytes = [0; ACCOUNT];
        // SAFETY: the array lends its whole length
        let code = unsafe { archive::pod1_fresh(bytes.as_mut_ptr(), ACCOUNT) };
        assert_eq!(code, 0, "libpod1.a has another size of account");
        Account(bytes)
    }

    /// The account in stored bytes; row 13 where they hold none.
    pub fn from_bytes(bytes: [u8; ACCOUNT]) -> Result<Account, Refusal> {
        let account = Account(bytes);
        account.read().map(|_| account)
    }

    pub fn bytes(&self) -> &[u8; ACCOUNT] {
        &self.0
    }

    /// One line of a season, without its line feed.
    pub fn feed(&mut self, line: &[u8]) -> Result<(), Refusal> {
        // SAFETY: both lend their whole length, and the account is borrowed alone
        accepted(unsafe {
            archive::pod1_feed(self.0.as_mut_ptr(), ACCOUNT, line.as_ptr(), line.len())
        })
    }

    /// An hour of floats, each a whole number: as the line of kind 02 with these numbers.
    pub fn feed_floats(&mut self, day: u16, hour: u8, readings: Floats) -> Result<(), Refusal> {
        // SAFETY: the account lends its whole length
        accepted(unsafe {
            archive::pod1_feed_floats(self.0.as_mut_ptr(), ACCOUNT, day, hour, readings)
        })
    }

    pub fn read(&self) -> Result<Reading, Refusal> {
        // SAFETY: the account lends its whole length
        unsafe { archive::pod1_read(self.0.as_ptr(), ACCOUNT) }.given()
    }

    /// The account's line, line feed included.
    pub fn line<'a>(&self, buffer: &'a mut [u8]) -> Result<&'a [u8], Refusal> {
        // SAFETY: both lend their whole length, and the buffer is borrowed alone
        put(buffer, |place, length| unsafe {
            archive::pod1_line(self.0.as_ptr(), ACCOUNT, place, length)
        })
    }

    /// What feeding the line would do, without doing it.
    pub fn trial(&self, line: &[u8]) -> Result<Trial, Refusal> {
        let mut bytes = [0; TRIAL];
        // SAFETY: all three lend their whole length, and the trial's bytes are this call's own
        let tried = unsafe {
            archive::pod1_trial(
                self.0.as_ptr(),
                ACCOUNT,
                line.as_ptr(),
                line.len(),
                bytes.as_mut_ptr(),
                TRIAL,
            )
        };
        accepted(tried.code)?;
        Ok(Trial { bytes, answer: accepted(tried.answer), reading: tried.reading.given() })
    }

    /// With the account that was tried, what feeding the trial's line would have done; with any
    /// other row 16.
    pub fn take(&mut self, trial: &Trial) -> Result<(), Refusal> {
        // SAFETY: both lend their whole length, and the account is borrowed alone
        accepted(unsafe {
            archive::pod1_take(self.0.as_mut_ptr(), ACCOUNT, trial.bytes.as_ptr(), TRIAL)
        })
    }
}

/// One line to one to six accounts: all take it or none.
pub fn feed_all(accounts: &mut [Account], line: &[u8]) -> Result<(), Refusal> {
    let length = std::mem::size_of_val(accounts);
    // SAFETY: an account is its bytes (repr(transparent)), so a slice of them is so many bytes one
    // after the other, borrowed alone
    accepted(unsafe {
        archive::pod1_feed_all(accounts.as_mut_ptr().cast(), length, line.as_ptr(), line.len())
    })
}

// ---- whole season texts

/// The report of a season text, or its line "refused N line L"; row 12 alone.
pub fn report<'a>(text: &[u8], buffer: &'a mut [u8]) -> Result<&'a [u8], Refusal> {
    // SAFETY: both lend their whole length, and the buffer is borrowed alone
    put(buffer, |place, length| unsafe {
        archive::pod1_report(text.as_ptr(), text.len(), place, length)
    })
}

/// Two texts of one mast that are alike but for ozone, with a tolerance in tenths of ppb.
pub fn compare<'a>(
    first: &[u8],
    second: &'a [u8],
    tolerance: u16,
) -> Result<Comparison<'a>, TextRefusal> {
    // SAFETY: both lend their whole length, and nothing is written
    let given = unsafe {
        archive::pod1_compare(first.as_ptr(), first.len(), second.as_ptr(), second.len(), tolerance)
    };
    accepted_text(given.code, given.text, given.line)?;
    let line = (given.hours > 0).then(|| &second[given.start as usize..given.end as usize]);
    Ok(Comparison { hours: given.hours, sum: given.sum, line })
}

/// The highest lower AOT40 of so many whole days in a row and its first day, or none where the
/// season has fewer; `scratch(days)` bytes are lent.
pub fn worst_stretch(
    text: &[u8],
    days: u16,
    scratch: &mut [u8],
) -> Result<Option<Stretch>, TextRefusal> {
    // SAFETY: both lend their whole length, and the scratch bytes are borrowed alone
    let given = unsafe {
        archive::pod1_worst_stretch(
            text.as_ptr(),
            text.len(),
            days,
            scratch.as_mut_ptr(),
            scratch.len(),
        )
    };
    accepted_text(given.code, u32::from(given.line > 0), given.line)?;
    Ok((given.found != 0).then_some(Stretch { sum: given.sum, day: given.day }))
}

// ---- lines to feed

/// A function for each: what it is given and a buffer, in which it gives the line back.
macro_rules! writers {
    ($($(#[$doc:meta])* $name:ident($($given:ident: $of:ty),*) by $call:ident;)*) => {$(
        $(#[$doc])*
        pub fn $name($($given: $of,)* buffer: &mut [u8]) -> Result<&[u8], Refusal> {
            // SAFETY: the buffer lends its whole length
            put(buffer, |place, length| unsafe { archive::$call($($given,)* place, length) })
        }
    )*};
}

writers! {
    write_header(tree: u8, days: u16, first: u16, last: u16, level: u16) by pod1_write_header;
    /// A header whose days come from latitude, in tenths of a degree north, and height in metres.
    write_place(tree: u8, days: u16, level: u16, latitude: u16, height: u16) by pod1_write_place;
    write_hour(hour: Hour) by pod1_write_hour;
    write_hour_pressure(hour: Hour, pressure: u16) by pod1_write_hour_pressure;
    write_hour_humidity(hour: Hour) by pod1_write_hour_humidity;
    write_end(hours: u16) by pod1_write_end;
    write_ceiling(ozone: u16) by pod1_write_ceiling;
    write_parameters(parameters: Parameters) by pod1_write_parameters;
    write_warmth(rise: u16, fall: u16, end: u16) by pod1_write_warmth;
}

/// What a call wrote into a buffer that it was lent alone.
fn put<'a>(
    buffer: &'a mut [u8],
    write: impl FnOnce(*mut u8, usize) -> archive::Printed,
) -> Result<&'a [u8], Refusal> {
    let printed = write(buffer.as_mut_ptr(), buffer.len());
    accepted(printed.code)?;
    Ok(&buffer[..printed.length as usize])
}

/// The archive's own calls and answers, as include/pod1.h has them.
pub(crate) mod archive {
    use super::{accepted, Floats, Hour, Parameters, Reading, Refusal, Verdict};

    #[repr(C)]
    #[derive(Clone, Copy, Debug, Default, PartialEq, Eq)]
    pub struct Readout {
        pub code: u32,
        pub verdict: u32,
        pub hours: u32,
        pub counted: u32,
        pub missing: u32,
        pub least: u32,
        pub most: u32,
        pub lower: u64,
        pub upper: u64,
    }

    impl Readout {
        pub fn given(self) -> Result<Reading, Refusal> {
            accepted(self.code)?;
            let Readout { hours, counted, missing, least, most, lower, upper, .. } = self;
            let verdict = [Verdict::None, Verdict::Undecided, Verdict::Exceeded, Verdict::Below]
                [self.verdict as usize];
            Ok(Reading { hours, counted, missing, least, most, lower, upper, verdict })
        }
    }

    #[repr(C)]
    #[derive(Clone, Copy, Debug, Default, PartialEq, Eq)]
    pub struct Printed {
        pub code: u32,
        pub length: u64,
    }

    #[repr(C)]
    #[derive(Clone, Copy, Debug, Default, PartialEq, Eq)]
    pub struct Tried {
        pub code: u32,
        pub answer: u32,
        pub reading: Readout,
    }

    #[repr(C)]
    #[derive(Clone, Copy, Debug, Default, PartialEq, Eq)]
    pub struct Comparison {
        pub code: u32,
        pub text: u32,
        pub line: u64,
        pub hours: u32,
        pub sum: u32,
        pub start: u64,
        pub end: u64,
    }

    #[repr(C)]
    #[derive(Clone, Copy, Debug, Default, PartialEq, Eq)]
    pub struct Stretch {
        pub code: u32,
        pub found: u32,
        pub line: u64,
        pub sum: u32,
        pub day: u32,
    }

    #[link(name = "pod1", kind = "static")]
    #[rustfmt::skip]
    extern "C" {
        pub fn pod1_fresh(account: *mut u8, account_length: usize) -> u32;
        pub fn pod1_feed(
            account: *mut u8, account_length: usize, line: *const u8, line_length: usize,
        ) -> u32;
        pub fn pod1_feed_floats(
            account: *mut u8, account_length: usize, day: u16, hour: u8, readings: Floats,
        ) -> u32;
        pub fn pod1_read(account: *const u8, account_length: usize) -> Readout;
        pub fn pod1_line(
            account: *const u8, account_length: usize, buffer: *mut u8, buffer_length: usize,
        ) -> Printed;
        pub fn pod1_trial(
            account: *const u8, account_length: usize, line: *const u8, line_length: usize,
            trial: *mut u8, trial_length: usize,
        ) -> Tried;
        pub fn pod1_take(
            account: *mut u8, account_length: usize, trial: *const u8, trial_length: usize,
        ) -> u32;
        pub fn pod1_feed_all(
            accounts: *mut u8, accounts_length: usize, line: *const u8, line_length: usize,
        ) -> u32;
        pub fn pod1_report(
            text: *const u8, text_length: usize, buffer: *mut u8, buffer_length: usize,
        ) -> Printed;
        pub fn pod1_compare(
            first: *const u8, first_length: usize, second: *const u8, second_length: usize,
            tolerance: u16,
        ) -> Comparison;
        pub fn pod1_worst_stretch(
            text: *const u8, text_length: usize, days: u16, scratch: *mut u8, scratch_length: usize,
        ) -> Stretch;
        pub fn pod1_write_header(
            tree: u8, days: u16, first: u16, last: u16, level: u16, buffer: *mut u8,
            buffer_length: usize,
        ) -> Printed;
        pub fn pod1_write_place(
            tree: u8, days: u16, level: u16, latitude: u16, height: u16, buffer: *mut u8,
            buffer_length: usize,
        ) -> Printed;
        pub fn pod1_write_hour(hour: Hour, buffer: *mut u8, buffer_length: usize) -> Printed;
        pub fn pod1_write_hour_pressure(
            hour: Hour, pressure: u16, buffer: *mut u8, buffer_length: usize,
        ) -> Printed;
        pub fn pod1_write_hour_humidity(
            hour: Hour, buffer: *mut u8, buffer_length: usize,
        ) -> Printed;
        pub fn pod1_write_end(hours: u16, buffer: *mut u8, buffer_length: usize) -> Printed;
        pub fn pod1_write_ceiling(ozone: u16, buffer: *mut u8, buffer_length: usize) -> Printed;
        pub fn pod1_write_parameters(
            parameters: Parameters, buffer: *mut u8, buffer_length: usize,
        ) -> Printed;
        pub fn pod1_write_warmth(
            rise: u16, fall: u16, end: u16, buffer: *mut u8, buffer_length: usize,
        ) -> Printed;
    }
}

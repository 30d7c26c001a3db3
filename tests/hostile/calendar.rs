//! Day numbers and months (docs/SPECIFICATION.md, "Month totals").

/// The last day of each month in a year of 365 days.
const LAST_DAYS: [i64; 12] = [31, 59, 90, 120, 151, 181, 212, 243, 273, 304, 334, 365];

/// The last day of a month, from 1, in a year of so many days: in one of 366, February has a day
/// more.
pub fn last_day(days: i64, month: i64) -> i64 {
    LAST_DAYS[month as usize - 1] + if month >= 2 { days - 365 } else { 0 }
}

pub fn month_of(days: i64, day: i64) -> i64 {
    (1..=12).find(|&month| day <= last_day(days, month)).expect("a day of the year")
}

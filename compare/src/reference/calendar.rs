//! Dates as the number YYYYMMDD.

/// A Gregorian day from 20000101 to 22991231.
pub fn is_date(date: u32) -> bool {
    let (year, month, day) = (date / 10_000, date / 100 % 100, date % 100);
    (2000..=2299).contains(&year) && (1..=12).contains(&month) && (1..=days(year, month)).contains(&day)
}

pub fn days(year: u32, month: u32) -> u32 {
    let leap = year % 4 == 0 && (year % 100 != 0 || year % 400 == 0);
    match month {
        2 if leap => 29,
        2 => 28,
        4 | 6 | 9 | 11 => 30,
        _ => 31,
    }
}

//! Open days, by a list of them all that is made by going through the years day by day.

use std::sync::LazyLock;

use super::calendar::{days, is_date};
use crate::days::Day;

/// 1 January, 1 May, 25 and 26 December.
const HOLIDAYS: [u32; 4] = [101, 501, 1225, 1226];

/// Refusals: not a date, and no later open day in these years.
const NO_DATE: Day = Day { number: 31, value: 0 };
const NO_LATER: Day = Day { number: 32, value: 0 };

/// Easter Sunday by the rule that Meeus gives after Butcher; its letters are theirs.
fn easter(year: u32) -> u32 {
    let a = year % 19;
    let (b, c) = (year / 100, year % 100);
    let (d, e) = (b / 4, b % 4);
    let f = (b + 8) / 25;
    let g = (b - f + 1) / 3;
    let h = (19 * a + b - d - g + 15) % 30;
    let (i, k) = (c / 4, c % 4);
    let l = (32 + 2 * e + 2 * i - h - k) % 7;
    let m = (a + 11 * h + 22 * l) / 451;
    let sum = h + l - 7 * m + 114;
    year * 10_000 + sum / 31 * 100 + sum % 31 + 1
}

fn every_day() -> Vec<u32> {
    let of_month = |year, month| (1..=days(year, month)).map(move |day| year * 10_000 + month * 100 + day);
    (2000..=2299).flat_map(|year| (1..=12).flat_map(move |month| of_month(year, month))).collect()
}

static OPEN: LazyLock<Vec<u32>> = LazyLock::new(|| {
    let all = every_day();
    let place = |date| all.binary_search(&date).expect("a day of the years");
    // the first day is a Saturday
    let mut open: Vec<bool> = (0..all.len()).map(|place| place % 7 > 1).collect();
    for year in 2000..=2299 {
        HOLIDAYS.iter().for_each(|holiday| open[place(year * 10_000 + holiday)] = false);
        let sunday = place(easter(year));
        open[sunday - 2] = false;
        open[sunday + 1] = false;
    }
    all.iter().zip(open).filter(|(_, open)| *open).map(|(date, _)| *date).collect()
});

/// How many open days come before the date.
fn before(date: u32) -> usize {
    OPEN.partition_point(|open| *open < date)
}

/// What is no date is not open.
pub fn is_open(date: u32) -> bool {
    OPEN.binary_search(&date).is_ok()
}

pub fn open_day(date: u32) -> Day {
    if !is_date(date) {
        return NO_DATE;
    }
    Day { number: 0, value: is_open(date).into() }
}

pub fn next_open_day(date: u32) -> Day {
    if !is_date(date) {
        return NO_DATE;
    }
    OPEN.get(before(date + 1)).map_or(NO_LATER, |open| Day { number: 0, value: *open })
}

pub fn open_days(from: u32, to: u32) -> Day {
    if !is_date(from) || !is_date(to) {
        return NO_DATE;
    }
    Day { number: 0, value: before(to).saturating_sub(before(from)) as u32 }
}

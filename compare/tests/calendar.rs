//! Open days. What is expected was worked out from the rule and from calendars kept elsewhere.

use compare::days::Day;
use compare::reference::{is_date, next_open_day, open_day, open_days};

const NO_DATE: Day = Day { number: 31, value: 0 };
const NO_LATER: Day = Day { number: 32, value: 0 };

fn told(value: u32) -> Day {
    Day { number: 0, value }
}

fn open(dates: &[u32]) {
    dates.iter().for_each(|date| assert_eq!(open_day(*date), told(1), "{date}"));
}

fn closed(dates: &[u32]) {
    dates.iter().for_each(|date| assert_eq!(open_day(*date), told(0), "{date}"));
}

#[test]
fn days_at_the_edges() {
    // 2024: Good Friday, Easter Monday, 1 May, both days of Christmas
    closed(&[20240329, 20240401, 20240501, 20241225, 20241226]);
    open(&[20240328, 20240402, 20240430, 20240502, 20241224, 20241227, 20241231]);
    // 2026
    closed(&[20260101, 20260403, 20260404, 20260405, 20260406, 20260501, 20261225, 20261226]);
    open(&[20260102, 20260402, 20260407, 20260430, 20260504, 20261224, 20261228]);
    // the latest Easter: Sunday, 25 April
    closed(&[20380423, 20380424, 20380425, 20380426]);
    open(&[20380422, 20380427]);
    // the earliest: Sunday, 22 March
    closed(&[22850320, 22850321, 22850322, 22850323]);
    open(&[22850319, 22850324]);
    // the years begin on a Saturday and end on a Sunday
    closed(&[20000101, 20000102, 22991230, 22991231]);
    open(&[20000103, 22991229]);
}

#[test]
fn weekdays() {
    // Monday to Sunday, in a year of 29 February and after days that a century leaves out
    for monday in [20000221, 20240219, 20260615, 21000222, 22000217] {
        open(&[0, 1, 2, 3, 4].map(|day| monday + day));
    }
    closed(&[
        20000226, 20000227, 20240302, 20240303, 21000227, 21000228, 21000306, 21000307, 22000301, 22000302,
    ]);
    open(&[20000229, 20000301, 21000301, 22000228, 22000303]);
}

#[test]
fn easter() {
    // Good Friday and Easter Monday are told by the days beside them, which are open
    let marches = [(2008, 23), (2024, 31), (2027, 28), (2100, 28), (2160, 23), (2228, 23), (2285, 22)];
    for (year, day) in marches {
        let sunday = year * 10_000 + 300 + day;
        closed(&[sunday - 2, sunday]);
        open(&[sunday - 3]);
    }
    let aprils = [
        (2000, 23),
        (2019, 21),
        (2025, 20),
        (2026, 5),
        (2038, 25),
        (2049, 18),
        (2076, 19),
        (2190, 25),
        (2200, 6),
        (2299, 16),
    ];
    for (year, day) in aprils {
        let sunday = year * 10_000 + 400 + day;
        closed(&[sunday - 2, sunday, sunday + 1]);
        open(&[sunday - 3, sunday + 2]);
    }
}

#[test]
fn what_is_no_date_is_refused() {
    let none = [0, 19991231, 20230229, 20240230, 21000229, 20260431, 20260600, 20261301, 23000101, u32::MAX];
    for date in none {
        assert_eq!([open_day(date), next_open_day(date)], [NO_DATE; 2], "{date}");
        let counts = [open_days(date, 20260615), open_days(20260615, date), open_days(date, date)];
        assert_eq!(counts, [NO_DATE; 3], "{date}");
    }
}

#[test]
fn the_next_open_day_is_later() {
    let next = |date| next_open_day(date).value;
    // over a night, a weekend, Easter from before and from within, Christmas, a year's end
    assert_eq!([20260615, 20260619, 20260620].map(next), [20260616, 20260622, 20260622]);
    assert_eq!([20260402, 20260403, 20260405, 20260406].map(next), [20260407; 4]);
    assert_eq!([20261224, 20261225, 20261226].map(next), [20261228; 3]);
    assert_eq!([20261231, 20270101, 20270103].map(next), [20270104; 3]);
    assert_eq!([20240228, 20240229, 21000226].map(next), [20240229, 20240301, 21000301]);
    assert_eq!(next(20000101), 20000103);
    assert_eq!(next_open_day(22991228), told(22991229));
    assert_eq!([22991229, 22991230, 22991231].map(next_open_day), [NO_LATER; 3]);
}

#[test]
fn counts() {
    // a week, one day, none; the second date is not counted
    assert_eq!(open_days(20260615, 20260622), told(5));
    assert_eq!(open_days(20260615, 20260616), told(1));
    assert_eq!(open_days(20260614, 20260615), told(0));
    assert_eq!(open_days(20260615, 20260615), told(0));
    assert_eq!(open_days(20260616, 20260615), told(0));
    // Wednesday, Thursday and Tuesday around Easter
    assert_eq!(open_days(20260401, 20260408), told(3));
    // 261 weekdays less five holidays; 262 less six
    assert_eq!(open_days(20260101, 20270101), told(256));
    assert_eq!(open_days(20240101, 20250101), told(256));
    // 15,653 weeks of five days, less 600 days beside Easter and the 856 other holidays that fall on one of the five
    assert_eq!(open_days(20000101, 22991231), told(76_809));
    assert_eq!(open_days(22991231, 20000101), told(0));
}

#[test]
fn the_three_questions_go_together() {
    let dates = || (20000101..=22991231).filter(|date| is_date(*date));
    let mut counted = 0;
    for date in dates() {
        assert_eq!(open_days(20000101, date), told(counted), "{date}");
        counted += open_day(date).value;
        let next = next_open_day(date);
        if next.number == 0 {
            assert_eq!(
                (open_day(next.value), open_days(date, next.value)),
                (told(1), open_day(date)),
                "{date}"
            );
        }
    }
    assert_eq!(dates().filter(|date| next_open_day(*date).number != 0).count(), 3);
}

//! Questions about open days: every number around the years, and two dates that lie near each other or far apart.

use super::Maker;
use crate::random::Random;
use crate::reference::is_date;

const YEARS: std::ops::RangeInclusive<u32> = 20000101..=22991231;
/// How many pairs of dates are drawn.
const DRAWN: usize = 150_000;

/// Numbers far away; some come to a date where a digit or a bit is lost.
const FAR: [u32; 18] = [
    0,
    1,
    101,
    1231,
    260615,
    2026061,
    202606150,
    120260615,
    2020260615,
    675620615,
    99991231,
    20260615 + (1 << 25),
    20260615 + (1 << 31),
    1 << 31,
    (1 << 31) - 1,
    4220260615,
    u32::MAX - 1,
    u32::MAX,
];
/// Days at the ends of years and months, and around the holidays that have a fixed day.
const TURNS: [u32; 18] =
    [101, 102, 103, 131, 201, 228, 229, 301, 331, 430, 501, 502, 1224, 1225, 1226, 1227, 1230, 1231];

/// Every number from before the first year to behind the last, and those far away.
pub fn dates() -> impl Iterator<Item = u32> {
    (19990000..=23010000).chain(FAR)
}

/// All neighbouring days in both orders, each of them with itself, and drawn pairs.
pub fn pairs(random: &mut Random) -> Vec<[u32; 2]> {
    let days: Vec<u32> = YEARS.filter(|date| is_date(*date)).collect();
    let neighbours = days.windows(2).flat_map(|two| [[two[0], two[1]], [two[1], two[0]], [two[0], two[0]]]);
    let drawn = (0..DRAWN).map(|_| pair(random, &days));
    neighbours.chain(drawn).collect()
}

fn pair(random: &mut Random, days: &[u32]) -> [u32; 2] {
    let place = random.below(days.len());
    let (any, other) = (days[place], random.pick(days));
    let reach = random.pick(&[8, 40, 800]);
    let near = days[(place + random.below(reach)).min(days.len() - 1)];
    let turns = [turn(random), turn(random)];
    let (odd, far) = (Maker::near_date(random), random.pick(&FAR));
    let [from, to] = match random.below(10) {
        0..=2 => [any, other],
        3 | 4 => [any, near],
        5 => turns,
        6 => [turns[0], year_of(turns[0]) + random.pick(&[0, 10_000]) + turns[1] % 10_000],
        7 => random.pick(&[[*YEARS.start(), any], [any, *YEARS.end()], [*YEARS.start(), *YEARS.end()]]),
        8 => [any, odd],
        _ => [odd, random.pick(&[odd, far, other])],
    };
    if random.one_in(4) {
        [to, from]
    } else {
        [from, to]
    }
}

/// The year as a number of eight digits.
fn year_of(date: u32) -> u32 {
    date / 10_000 * 10_000
}

/// In most years 29 February is no date.
fn turn(random: &mut Random) -> u32 {
    let year = 2000 + random.below(300) as u32;
    year * 10_000 + random.pick(&TURNS)
}

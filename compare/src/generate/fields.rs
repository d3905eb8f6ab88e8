//! Single fields: mostly good and from a small stock, so that repeats and near misses are common.

use super::Maker;
use crate::random::Random;
use crate::records::{padded, Bic, Identifier, Sender};
use crate::reference::{is_date, next_open_day};

/// Open days, among them the first and the last of the years and some beside closed ones.
const USUAL_DATES: [u32; 10] =
    [20260615, 20240229, 20000103, 22991229, 20000229, 20991231, 20260402, 20260407, 20241224, 20241227];
/// Closed days: the first and the last of the years, a Saturday, a Sunday, and every holiday when it is no such day.
const CLOSED_DATES: [u32; 14] = [
    20000101, 22991231, 20260613, 20260614, 20260101, 20260403, 20260406, 20260501, 20261225, 20241226,
    20380423, 20380426, 22850320, 22850323,
];
const ODD_DATES: [u32; 16] = [
    20230229,
    21000229,
    22000229,
    23000101,
    19991231,
    20260631,
    20260431,
    20260100,
    20261301,
    20260001,
    20260132,
    0,
    u32::MAX,
    20240230,
    20261200,
    22991232,
];

const SENDERS: [&[u8; 8]; 4] = [b"AAAALV22", b"BBBBLV22", b"AAAALV23", b"1AAALV22"];
const BRANCHES: [&[u8; 3]; 8] = [b"XXX", b"XXX", b"RIX", b"KUL", b"XXY", b"YXX", b"0XX", b"   "];
/// Characters next to the ranges that a rule allows, and some from far away.
const ODD_CHARACTERS: [u8; 16] =
    [b'@', b'[', b'`', b'{', b'/', b':', b'a', b'z', b' ', 0, b'_', b'*', b'"', 0xC1, 255, b'9'];

const USUAL_IDENTIFIERS: [&[u8]; 6] = [b"A", b"B", b"T1", b"T2", b"A/B", b"A B"];
const ODD_IDENTIFIERS: [&[u8]; 14] =
    [b"", b"/A", b"A/", b"A//B", b" A", b"A /", b"/", b"//", b"A/ /B", b"a", b"A\0", b"\0", b"A\t", b" /"];

const USUAL_AMOUNTS: [u64; 8] = [1, 2, 100, 200, 300, 99_999_999_998, 99_999_999_999, 50_000_000_000];
const ODD_AMOUNTS: [u64; 10] = [
    0,
    100_000_000_000,
    100_000_000_001,
    u64::MAX,
    u64::MAX - 1,
    1 << 63,
    1 << 32,
    (1 << 63) - 1,
    (1 << 32) + 1,
    1 << 40,
];

/// The reason that allows a return of less.
pub const ANSWERS_CANCELLATION: &[u8; 4] = b"FOCR";

impl Maker<'_> {
    /// A calendar date, as a call mostly has it. Few are closed: on such a day every bulk falls that is dated so.
    pub fn date(random: &mut Random) -> u32 {
        match random.below(15) {
            0 => random.pick(&CLOSED_DATES),
            1 => Maker::any_date(random),
            2..=5 => {
                let next = next_open_day(Maker::any_date(random));
                if next.number == 0 {
                    next.value
                } else {
                    USUAL_DATES[0]
                }
            }
            _ => random.pick(&USUAL_DATES),
        }
    }

    /// Any date, open or closed, mostly around the limits.
    fn any_date(random: &mut Random) -> u32 {
        let date = Maker::near_date(random);
        if is_date(date) {
            date
        } else {
            USUAL_DATES[0]
        }
    }

    /// The call's date; or a number beside it, a date of another call, a closed day, or what is often no date at all.
    pub fn value_date(&mut self) -> u32 {
        if !self.spoils() {
            return self.date;
        }
        match self.random.below(8) {
            0 => self.other(u64::from(self.date)) as u32,
            1 => Maker::date(self.random),
            2 => self.random.pick(&CLOSED_DATES),
            3 => Maker::near_date(self.random),
            _ => self.date,
        }
    }

    /// Any year, month and day around the limits; often no date at all.
    pub fn near_date(random: &mut Random) -> u32 {
        if random.one_in(3) {
            return random.pick(&ODD_DATES);
        }
        let year =
            if random.one_in(2) { random.pick(&[1999, 2000, 2299, 2300]) } else { 1999 + random.below(302) };
        let day = if random.one_in(2) { 28 + random.below(5) } else { random.below(33) };
        (year * 10_000 + random.below(14) * 100 + day) as u32
    }

    /// The sender that every second bulk has.
    pub fn first_sender(&self) -> Sender {
        self.crowd.first().map_or(*SENDERS[0], |bic| padded(&bic[..8]))
    }

    pub fn sender(&mut self) -> Sender {
        let sender = match (self.random.one_in(2), self.crowds()) {
            (true, _) => self.first_sender(),
            (false, true) => padded(&self.random.pick(&self.crowd)[..8]),
            (false, false) => *self.random.pick(&SENDERS),
        };
        if self.spoils() {
            self.altered(sender)
        } else {
            sender
        }
    }

    pub fn bic(&mut self) -> Bic {
        let bic = if self.crowds() {
            self.random.pick(&self.crowd)
        } else {
            let (sender, branch) = (self.random.pick(&SENDERS), self.random.pick(&BRANCHES));
            padded(&[&sender[..], &branch[..]].concat())
        };
        if self.spoils() {
            self.altered(bic)
        } else {
            bic
        }
    }

    /// Whether the next BIC is one of the crowd.
    fn crowds(&mut self) -> bool {
        !self.crowd.is_empty() && !self.random.one_in(6)
    }

    /// The same field with one byte changed, somewhere.
    pub fn altered<const WIDTH: usize>(&mut self, mut field: [u8; WIDTH]) -> [u8; WIDTH] {
        let place = self.random.below(WIDTH);
        field[place] = match self.random.below(3) {
            0 => self.random.byte(),
            1 => self.random.pick(&ODD_CHARACTERS),
            _ => field[place].wrapping_add(self.random.pick(&[1, 255])),
        };
        field
    }

    pub fn identifier(&mut self) -> Identifier {
        if self.spoils() {
            return self.odd_identifier();
        }
        match self.random.below(8) {
            0 => self.long_identifier(),
            1..=3 => {
                self.made += 1;
                padded(format!("N{}", self.made).as_bytes())
            }
            _ => padded(self.random.pick(&USUAL_IDENTIFIERS)),
        }
    }

    /// All 35 characters, with a difference at the front, at the end, or nowhere.
    fn long_identifier(&mut self) -> Identifier {
        let mut identifier: Identifier = padded(b"SALARIES/2026-06/BATCH:0001/0000001");
        let place = self.random.pick(&[0, 17, 34]);
        identifier[place] = self.random.pick(b"12");
        identifier
    }

    fn odd_identifier(&mut self) -> Identifier {
        match self.random.below(4) {
            0 => padded(self.random.pick(&ODD_IDENTIFIERS)),
            1 => {
                let byte = self.random.byte();
                padded(self.random.pick(&[&[b'A', byte, b'A'][..], &[byte], &[byte, b'A'], &[b'A', byte]]))
            }
            2 => {
                let mut identifier = self.long_identifier();
                identifier[33] = self.random.pick(b"/1 ");
                identifier[34] = self.random.pick(b"/ 2");
                identifier
            }
            _ => {
                let identifier = self.long_identifier();
                self.altered(identifier)
            }
        }
    }

    pub fn amount(&mut self) -> u64 {
        if !self.spoils() {
            return self.random.pick(&USUAL_AMOUNTS);
        }
        if self.random.one_in(8) {
            self.random.draw()
        } else {
            self.random.pick(&ODD_AMOUNTS)
        }
    }

    /// The number itself, or another.
    pub fn stated(&mut self, number: u64) -> u64 {
        if self.spoils() {
            self.other(number)
        } else {
            number
        }
    }

    /// A number that differs a little, in a high byte, or altogether.
    fn other(&mut self, number: u64) -> u64 {
        let other =
            [number.wrapping_add(1), number.wrapping_sub(1), number ^ 1 << 32, number ^ 1 << 63, 0, u64::MAX];
        self.random.pick(&other)
    }

    /// The original amount beside a returned one; for the reason that allows less, another one every second time.
    pub fn original(&mut self, amount: u64, reason: &[u8; 4]) -> u64 {
        if reason == ANSWERS_CANCELLATION && self.random.one_in(2) {
            return self.other(amount);
        }
        self.stated(amount)
    }
}

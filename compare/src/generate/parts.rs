//! Records and sections made of fields.

use super::fields::ANSWERS_CANCELLATION;
use super::Maker;
use crate::call::report_length;
use crate::records::{padded, write_section, Bulk, Entry, Header, Message, Record, Row};

/// A list of its own: a reason missing from the reference is then still tried.
const REASONS: [&[u8; 4]; 17] = [
    b"AC01", b"AC04", b"AC06", b"AG01", b"AG02", b"AM05", b"BE04", b"CNOR", b"FOCR", b"MD07", b"MS02",
    b"MS03", b"RC01", b"RR01", b"RR02", b"RR03", b"RR04",
];
const ODD_REASONS: [&[u8; 4]; 10] =
    [b"    ", b"AC02", b"AC05", b"MS01", b"RR05", b"RR00", b"ac01", b"AC0 ", b" AC1", b"FOCs"];
const NAMES: [&[u8; 15]; 2] = [b"pacs.008.001.08", b"pacs.008.001.02"];
const ODD_NAMES: [&[u8]; 5] = [b"", b"pacs.008.001.09", b"pacs.008", b"pacs.004.001.08", b"pacs.008.001.0"];

pub const WIDEST: (u32, u32) = (20000101, 22991231);

impl Maker<'_> {
    pub fn rows(&mut self, count: usize) -> Vec<Row> {
        let mut rows: Vec<Row> = (0..count).map(|_| self.row()).collect();
        // without a participant every bulk falls, so most tables get one
        if count > 0 && !self.random.one_in(6) {
            let place = self.random.below(count);
            let bic = padded(&[&self.first_sender()[..], b"XXX"].concat());
            rows[place] = Row { bic, first: WIDEST.0, last: WIDEST.1, kind: 5 };
        }
        rows
    }

    fn row(&mut self) -> Row {
        let (first, last) = self.window();
        Row { bic: self.bic(), first, last, kind: self.random.pick(&[5, 5, 5, 0, 6, 20]) }
    }

    fn window(&mut self) -> (u32, u32) {
        let day = self.date;
        let windows = [
            (day, day),
            (day, WIDEST.1),
            (WIDEST.0, day),
            (day.saturating_add(1), WIDEST.1),
            (WIDEST.0, day.saturating_sub(1)),
            (day.saturating_add(1), day.saturating_sub(1)),
            (0, u32::MAX),
        ];
        if self.random.one_in(2) {
            WIDEST
        } else {
            self.random.pick(&windows)
        }
    }

    pub fn entry(&mut self) -> Entry {
        Entry {
            sender: self.sender(),
            identifier: self.identifier(),
            tag: self.random.pick(&[1, 1, 1, 2, 2, 2, 0, 3, 255]),
        }
    }

    /// A register with so many entries in use and so many free; free ones may hold anything, and one may stand twice.
    pub fn register(&mut self, used: usize, free: usize) -> Vec<u8> {
        let mut entries: Vec<Entry> = (0..used).map(|_| self.entry()).collect();
        if used > 1 && self.random.one_in(3) {
            let (first, second) = (self.random.below(used), self.random.below(used));
            entries[second] = entries[first].clone();
        }
        let mut register = Vec::new();
        write_section(&entries, &mut register);
        match self.random.below(3) {
            0 => register.resize(register.len() + free * Entry::WIDTH, 0),
            1 => register.extend(self.random.bytes(free * Entry::WIDTH)),
            _ => (0..free).for_each(|_| self.entry().write(&mut register)),
        }
        register
    }

    /// Payments first, then returns.
    pub fn bulks(&mut self, count: usize, most_messages: usize) -> Vec<Bulk> {
        let payments = if self.random.one_in(2) { count } else { self.random.below(count + 1) };
        (0..count).map(|index| self.bulk(if index < payments { 1 } else { 3 }, most_messages)).collect()
    }

    pub fn bulk(&mut self, kind: u8, most_messages: usize) -> Bulk {
        let count = if self.random.one_in(12) { 0 } else { 1 + self.random.below(most_messages) };
        let mut messages: Vec<Message> = (0..count).map(|_| self.message(kind)).collect();
        if count > 1 && self.random.one_in(40) {
            self.reach_64_bits(&mut messages);
        }
        let header = self.header(kind, &messages);
        Bulk { header, messages }
    }

    /// Makes the sum 2^64 - 1, the last that a header can state, or 2^64, which looks like 0 in eight bytes.
    fn reach_64_bits(&mut self, messages: &mut [Message]) {
        let (last, front) = messages.split_last_mut().expect("there are two");
        let others = front.iter().fold(0u64, |sum, message| sum.wrapping_add(message.amount));
        last.amount = (u64::MAX - others).wrapping_add(self.random.pick(&[0, 1]));
    }

    fn header(&mut self, kind: u8, messages: &[Message]) -> Header {
        let sum = messages.iter().fold(0u64, |sum, message| sum.wrapping_add(message.amount));
        Header {
            kind,
            identifier: self.identifier(),
            sender: self.sender(),
            number: self.stated(messages.len() as u64),
            sum: self.stated(sum),
            date: self.value_date(),
            marks: if self.spoils() { self.random.pick(&[0, 1, 2, 4, 5, 6, 7, 11, 131, 255]) } else { 3 },
        }
    }

    fn message(&mut self, kind: u8) -> Message {
        let amount = self.amount();
        let (identifier, receiver) = (self.identifier(), self.bic());
        let blank =
            Message { identifier, receiver, amount, original: 0, reason: padded(b""), name: padded(b"") };
        let reason = self.reason();
        let returned =
            Message { original: self.original(amount, &reason), reason, name: self.name(), ..blank.clone() };
        if kind == 3 {
            return returned;
        }
        if !self.spoils() {
            return blank;
        }
        // one of the three fields that a payment leaves empty, or all
        match self.random.below(4) {
            0 => Message { original: returned.original, ..blank },
            1 => Message { reason: self.altered(blank.reason), ..blank },
            2 => Message { name: self.altered(blank.name), ..blank },
            _ => returned,
        }
    }

    fn reason(&mut self) -> [u8; 4] {
        let good = if self.random.one_in(4) { *ANSWERS_CANCELLATION } else { *self.random.pick(&REASONS) };
        match (self.spoils(), self.random.one_in(2)) {
            (false, _) => good,
            (true, true) => *self.random.pick(&ODD_REASONS),
            (true, false) => self.altered(good),
        }
    }

    fn name(&mut self) -> [u8; 15] {
        let good = *self.random.pick(&NAMES);
        match (self.spoils(), self.random.one_in(2)) {
            (false, _) => good,
            (true, true) => padded(self.random.pick(&ODD_NAMES)),
            (true, false) => self.altered(good),
        }
    }

    pub fn positions(&mut self, rows: usize) -> Vec<i64> {
        let usual = [0, 0, 0, 1, -1, 100, -100, 5_000_000_000_000, -5_000_000_000_000];
        (0..rows).map(|_| self.random.pick(&usual)).collect()
    }

    /// Report space that is long enough, full of bytes that must stay.
    pub fn space(&mut self, bulks: &[Bulk]) -> Vec<u8> {
        let messages = bulks.iter().map(|bulk| bulk.messages.len()).sum();
        let spare = self.random.pick(&[0, 0, 1, 40, 300]);
        self.random.bytes(report_length(bulks.len(), messages) + spare)
    }
}

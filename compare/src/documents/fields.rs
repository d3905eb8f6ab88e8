//! Bulks whose every field a document can carry.

use crate::random::Random;
use crate::records::{padded, Bulk, Header, Message};

/// Letters that need care somewhere, among usual ones.
const LETTERS: &str = "ABZaz09/-?:().,'+ &<>\"]]\t\n\r\u{7F}\u{E4}\u{20AC}\u{FFFD}\u{10400}";

const IDENTIFIERS: [&str; 6] = ["A", "T1", "A/B", "A B", "SALARIES/2026-06/BATCH:0001/0000001", ""];
const SENDERS: [&str; 3] = ["AAAALV22", "BBBBLV22", "1AAALV22"];
const RECEIVERS: [&str; 6] = ["BBBBLV22XXX", "BBBBLV22RIX", "BBBBLV22", "AAAALV2XXXX", "BBBBLV22XX", ""];
const REASONS: [&str; 4] = ["AC01", "FOCR", "RR04", ""];
const NAMES: [&str; 4] = ["pacs.008.001.08", "pacs.008.001.02", "pacs.008", ""];
const NUMBERS: [u64; 6] = [0, 1, 2, 15_000, 1 << 32, 999_999_999_999_999];
const DATES: [u32; 6] = [20260615, 20240229, 0, 99_999_999, 20261301, 9];
/// The last three are the largest with two, one and no digit behind the point.
const AMOUNTS: [u64; 12] = [
    0,
    1,
    10,
    99,
    100,
    101,
    12_345_600,
    99_999_999_999,
    1 << 32,
    999_999_999_999_999_999,
    9_999_999_999_999_999_990,
    18_446_744_073_709_551_600,
];

pub fn bulks(random: &mut Random, most_bulks: usize, most_messages: usize) -> Vec<Bulk> {
    (0..1 + random.below(most_bulks)).map(|_| bulk(random, most_messages)).collect()
}

fn bulk(random: &mut Random, most_messages: usize) -> Bulk {
    let kind = random.pick(&[1, 3]);
    let messages: Vec<Message> =
        (0..random.below(most_messages + 1)).map(|_| message(random, kind)).collect();
    let header = Header {
        kind,
        identifier: text(random, &IDENTIFIERS),
        sender: text(random, &SENDERS),
        number: if random.one_in(2) { messages.len() as u64 } else { number(random) },
        sum: amount(random),
        date: if random.one_in(3) { random.below(100_000_000) as u32 } else { random.pick(&DATES) },
        marks: random.pick(&[3, 3, 3, 0, 1, 2, 4, 5, 6, 7]),
    };
    Bulk { header, messages }
}

fn message(random: &mut Random, kind: u8) -> Message {
    let (identifier, receiver) = (text(random, &IDENTIFIERS), text(random, &RECEIVERS));
    let amount = amount(random);
    if kind == 1 {
        let (reason, name) = (padded(b""), padded(b""));
        return Message { identifier, receiver, amount, original: 0, reason, name };
    }
    let original = if random.one_in(2) { amount } else { self::amount(random) };
    let (reason, name) = (text(random, &REASONS), text(random, &NAMES));
    Message { identifier, receiver, amount, original, reason, name }
}

/// A usual text, or any letters that fit.
fn text<const WIDTH: usize>(random: &mut Random, usual: &[&str]) -> [u8; WIDTH] {
    if !random.one_in(3) {
        return padded(random.pick(usual).as_bytes());
    }
    let letters: Vec<char> = LETTERS.chars().collect();
    let mut text = String::new();
    for _ in 0..random.below(WIDTH + 2) {
        let letter = random.pick(&letters);
        if text.len() + letter.len_utf8() <= WIDTH {
            text.push(letter);
        }
    }
    padded(text.as_bytes())
}

fn number(random: &mut Random) -> u64 {
    if random.one_in(2) {
        random.pick(&NUMBERS)
    } else {
        random.draw() % 1_000_000_000_000_000
    }
}

fn amount(random: &mut Random) -> u64 {
    if random.one_in(2) {
        return random.pick(&AMOUNTS);
    }
    let digits = random.below(19) as u32;
    random.draw() % 10u64.pow(digits)
}

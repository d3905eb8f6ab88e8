//! The texts that stand for fields, and texts that stand for nothing.

use crate::random::Random;
use crate::records::trimmed;

const OTHER_TEXTS: [&str; 16] = [
    "",
    "SEPA",
    "NOTPROVIDED",
    "EKS",
    "CLRG",
    "SLEV",
    "2026-06-15",
    "LV80BANK0000435195001",
    "1.00",
    "R\u{12B}ga, Br\u{12B}v\u{12B}bas iela 1",
    "\u{416}\u{443}\u{43A}\u{43E}\u{432} & <Co>",
    "a text that is longer than any field of the sheet, which nobody takes, so its length is of no matter",
    "]] > ]]",
    "line\none\n\ntwo",
    "\u{10FFFF}\u{FFFD}\u{FEFF}\u{E000}\u{D7FF}",
    " \t ",
];

/// A text of no meaning.
pub fn other(random: &mut Random) -> String {
    random.pick(&OTHER_TEXTS).to_string()
}

/// A field's text without the spaces behind it, or with some of them again.
pub fn text(random: &mut Random, field: &[u8]) -> String {
    let least = trimmed(field).len();
    let length = if random.one_in(4) { least + random.below(field.len() - least + 1) } else { least };
    string(&field[..length])
}

/// A receiver: where the head office's sign may be left out, it may be; eight bytes alone would get it.
pub fn receiver(random: &mut Random, field: &[u8; 11]) -> String {
    let short = string_of(&field[..8]).filter(|_| field.ends_with(b"XXX"));
    match short {
        Some(short) if random.one_in(2) => short,
        _ if trimmed(field).len() <= 8 && !random.one_in(3) => {
            let spaces = if trimmed(field).len() == 8 { 1 + random.below(3) } else { 0 };
            string(&field[..trimmed(field).len() + spaces])
        }
        _ => string(field),
    }
}

fn string_of(bytes: &[u8]) -> Option<String> {
    String::from_utf8(bytes.to_vec()).ok()
}

fn string(bytes: &[u8]) -> String {
    string_of(bytes).expect("fields of documents hold whole letters")
}

/// Digits with zeros before them, up to so many in all.
fn with_zeros(random: &mut Random, digits: String, most: usize) -> String {
    let room = most.saturating_sub(digits.len());
    let zeros = if random.one_in(3) { random.below(room + 1) } else { 0 };
    "0".repeat(zeros) + &digits
}

pub fn number(random: &mut Random, number: u64) -> String {
    with_zeros(random, number.to_string(), 15)
}

/// Any of the ways to write so many cents with at most 18 digits.
pub fn amount(random: &mut Random, cents: u64) -> String {
    let mut ways = Vec::new();
    for (behind, unit) in [(2, 1), (1, 10), (0, 100)] {
        let whole = (cents / 100).to_string();
        if cents % unit == 0 && whole.len() + behind <= 18 {
            ways.push((whole.clone(), behind));
        }
        // nothing but the digits behind the point
        if cents < 100 && cents % unit == 0 && behind > 0 {
            ways.push((String::new(), behind));
        }
    }
    let (whole, behind) = ways[random.below(ways.len())].clone();
    let whole = with_zeros(random, whole, 18 - behind);
    let fraction = format!("{:02}", cents % 100)[..behind].to_string();
    let point = if behind > 0 || random.one_in(4) { "." } else { "" };
    whole + point + &fraction
}

pub fn date(date: u32) -> String {
    format!("{:04}-{:02}-{:02}", date / 10_000, date / 100 % 100, date % 100)
}

/// A mark's own word, or some other text.
pub fn mark(random: &mut Random, word: &str, holds: bool) -> String {
    let others =
        ["", "INDA", "eks", "Clrg", " ", "EKS ", " CLRG", "CLRGCLRG", "a long text, since any will do here"];
    if holds {
        word.to_string()
    } else {
        random.pick(&others).to_string()
    }
}

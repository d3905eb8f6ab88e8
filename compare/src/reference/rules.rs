//! The faults of a bulk and of a message. Each list is in the order of the bits.

use super::judging::{Register, BULK, MESSAGE};
use super::open::is_open;
use super::routing;
use crate::records::{trimmed, Bic, Bulk, Header, Identifier, Message, Row};

pub const PAYMENTS: u8 = 1;
pub const RETURNS: u8 = 3;
pub const MOST_CENTS: u64 = 99_999_999_999;

/// CLRG (bit 0) and EKS (bit 1) are named, and no bulk recipient (bit 2) is.
const MARKS: u8 = 3;

const REASONS: [&[u8; 4]; 17] = [
    b"AC01", b"AC04", b"AC06", b"AG01", b"AG02", b"AM05", b"BE04", b"CNOR", b"FOCR", b"MD07", b"MS02",
    b"MS03", b"RC01", b"RR01", b"RR02", b"RR03", b"RR04",
];
/// A return for this reason answers a cancellation request.
const ANSWERS_CANCELLATION: &[u8; 4] = b"FOCR";
const NAMES: [&[u8; 15]; 2] = [b"pacs.008.001.08", b"pacs.008.001.02"];

/// What a fault is judged by, besides the bulk or the message itself.
pub struct Known<'a> {
    pub date: u32,
    pub rows: &'a [Row],
    pub register: &'a Register,
}

fn mask(facts: &[bool]) -> u16 {
    facts.iter().enumerate().map(|(bit, holds)| u16::from(*holds) << bit).sum()
}

pub fn bulk_faults(known: &Known, bulk: &Bulk) -> u16 {
    let Bulk { header, messages } = bulk;
    let sum: u128 = messages.iter().map(|message| u128::from(message.amount)).sum();
    mask(&[
        header.marks != MARKS,
        routing::participant_row(known.rows, known.date, &header.sender).is_none(),
        header.date != known.date,
        badly_formed(&header.identifier),
        known.register.holds(&header.sender, &header.identifier, BULK),
        messages.is_empty(),
        header.number != messages.len() as u64,
        u128::from(header.sum) != sum,
        !is_open(header.date),
    ])
}

pub fn message_faults(known: &Known, header: &Header, message: &Message) -> u16 {
    let row = routing::row_of(known.rows, known.date, &message.receiver);
    let payment = header.kind == PAYMENTS;
    let returned = header.kind == RETURNS;
    mask(&[
        badly_formed(&message.identifier),
        known.register.holds(&header.sender, &message.identifier, MESSAGE),
        !well_formed_bic(&message.receiver),
        !routing::reachable(known.rows, row),
        !(1..=MOST_CENTS).contains(&message.amount),
        payment && names_an_original(message),
        returned && !REASONS.contains(&&message.reason),
        returned && !NAMES.contains(&&message.name),
        returned && !may_go_back(message),
    ])
}

fn names_an_original(message: &Message) -> bool {
    message.original != 0 || !blank(&message.reason) || !blank(&message.name)
}

/// The whole original amount may, and less of it where a charge may be taken off.
fn may_go_back(message: &Message) -> bool {
    message.amount == message.original
        || message.amount < message.original && &message.reason == ANSWERS_CANCELLATION
}

fn blank(field: &[u8]) -> bool {
    trimmed(field).is_empty()
}

/// Four letters or digits, two letters, five letters or digits; capitals only.
fn well_formed_bic(bic: &Bic) -> bool {
    let letter = |byte: &u8| byte.is_ascii_uppercase();
    let either = |byte: &u8| byte.is_ascii_uppercase() || byte.is_ascii_digit();
    bic[..4].iter().all(either) && bic[4..6].iter().all(letter) && bic[6..].iter().all(either)
}

/// The characters an identifier may hold.
pub fn in_set(byte: u8) -> bool {
    byte.is_ascii_alphanumeric() || b"/-?:().,'+ ".contains(&byte)
}

pub fn badly_formed(identifier: &Identifier) -> bool {
    let text = trimmed(identifier);
    text.is_empty()
        || !text.iter().all(|byte| in_set(*byte))
        || text.starts_with(b" ")
        || text.starts_with(b"/")
        || text.ends_with(b"/")
        || text.windows(2).any(|pair| pair == b"//")
}

//! Bytes laid out by hand, apart from the library's own records, so that a wrong layout there would show.
#![allow(dead_code)]

use compare::call::{Answer, Call};
use compare::reference;

pub const DATE: u32 = 20260615;

pub fn text(value: &str, width: usize) -> Vec<u8> {
    let mut field = value.as_bytes().to_vec();
    assert!(field.len() <= width);
    field.resize(width, b' ');
    field
}

pub fn number(value: u128, width: usize) -> Vec<u8> {
    value.to_be_bytes()[16 - width..].to_vec()
}

pub fn row_between(bic: &str, first: u32, last: u32, kind: u8) -> Vec<u8> {
    [text(bic, 11), number(first.into(), 4), number(last.into(), 4), vec![kind]].concat()
}

pub fn row(bic: &str, kind: u8) -> Vec<u8> {
    row_between(bic, 20260101, 20991231, kind)
}

pub fn entry(sender: &str, identifier: &str, tag: u8) -> Vec<u8> {
    [text(sender, 8), text(identifier, 35), vec![tag]].concat()
}

/// A header of payments that says what is true of these messages.
pub fn header(identifier: &str, sender: &str, count: u64, sum: u64) -> Vec<u8> {
    let numbers = [number(count.into(), 8), number(sum.into(), 8), number(DATE.into(), 4)].concat();
    [vec![1], text(identifier, 35), text(sender, 8), numbers, vec![3]].concat()
}

/// Where the fields of a header stand.
pub const KIND: usize = 0;
pub const STATED_NUMBER: usize = 44;
pub const STATED_SUM: usize = 52;
pub const VALUE_DATE: usize = 60;
pub const MARKS: usize = 64;

pub fn payment(identifier: &str, receiver: &str, amount: u64) -> Vec<u8> {
    let amounts = [number(amount.into(), 8), number(0, 8)].concat();
    [text(identifier, 35), text(receiver, 11), amounts, text("", 4), text("", 15)].concat()
}

pub fn returned(
    identifier: &str,
    receiver: &str,
    amount: u64,
    original: u64,
    reason: &str,
    name: &str,
) -> Vec<u8> {
    let amounts = [number(amount.into(), 8), number(original.into(), 8)].concat();
    [text(identifier, 35), text(receiver, 11), amounts, text(reason, 4), text(name, 15)].concat()
}

/// A count and the records.
pub fn section(records: &[Vec<u8>]) -> Vec<u8> {
    [number(records.len() as u128, 4), records.concat()].concat()
}

/// Headers, then each one's messages.
pub fn sheet(bulks: &[(Vec<u8>, Vec<Vec<u8>>)]) -> Vec<u8> {
    let headers: Vec<Vec<u8>> = bulks.iter().map(|bulk| bulk.0.clone()).collect();
    let sections: Vec<Vec<u8>> = bulks.iter().map(|bulk| section(&bulk.1)).collect();
    [section(&headers), sections.concat()].concat()
}

pub fn register(entries: &[Vec<u8>], room: usize) -> Vec<u8> {
    let mut register = section(entries);
    register.resize(4 + 44 * room, 0);
    register
}

/// A call over two participants and a branch that is not reachable, with plenty of room.
pub fn call(bulks: &[(Vec<u8>, Vec<Vec<u8>>)]) -> Call {
    let messages: usize = bulks.iter().map(|bulk| bulk.1.len()).sum();
    Call {
        date: DATE,
        sheet: sheet(bulks),
        table: section(&[row("AAAALV22XXX", 5), row("BBBBLV22XXX", 5), row("BBBBLV22KUL", 0)]),
        register: register(&[], bulks.len() + messages),
        positions: vec![0; 24],
        report: vec![0xEE; 4 + 68 * bulks.len() + 38 * messages],
        index: vec![0; 8 * (bulks.len() + messages)],
    }
}

/// A call with one bulk from AAAALV22 of these messages, told the true number and sum.
pub fn one_bulk(messages: &[Vec<u8>]) -> Call {
    let amount = |message: &Vec<u8>| u64::from_be_bytes(message[46..54].try_into().unwrap());
    let sum = messages.iter().map(amount).fold(0, u64::wrapping_add);
    call(&[(header("D1", "AAAALV22", messages.len() as u64, sum), messages.to_vec())])
}

pub fn judge(call: &mut Call) -> Answer {
    let Call { date, sheet, table, register, positions, report, .. } = call;
    reference::judge(*date, sheet, table, register, positions, report)
}

/// The answer's number; any refusal must keep every byte and answer no length.
pub fn answered(call: &Call) -> u32 {
    let mut after = call.clone();
    let answer = judge(&mut after);
    if answer.number != 0 {
        assert_eq!((answer.length, &after), (0, call));
    }
    answer.number
}

/// Judges the call and gives the bulk lines' outcomes and faults.
pub fn bulk_lines(call: &Call) -> Vec<(u8, u16)> {
    let mut call = call.clone();
    assert_eq!(judge(&mut call).number, 0);
    let bulks = u32::from_be_bytes(call.report[..4].try_into().unwrap()) as usize;
    (0..bulks).map(|bulk| outcome_and_faults(&call.report[4 + 64 * bulk + 35..])).collect()
}

/// Judges a call of one bulk and gives its message lines' outcomes and faults.
pub fn message_lines(call: &Call) -> Vec<(u8, u16)> {
    let mut call = call.clone();
    assert_eq!(judge(&mut call).number, 0);
    let messages = u32::from_be_bytes(call.report[68..72].try_into().unwrap()) as usize;
    (0..messages).map(|message| outcome_and_faults(&call.report[72 + 38 * message + 35..])).collect()
}

fn outcome_and_faults(line: &[u8]) -> (u8, u16) {
    (line[0], u16::from_be_bytes([line[1], line[2]]))
}

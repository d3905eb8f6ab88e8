//! Cases at the limits of size, each on both sides of its limit, and cases of full size.

use super::index::ending_at;
use super::parts::WIDEST;
use crate::call::{report_length, write_positions, Call};
use crate::records::{
    padded, write_bulks, write_section, Bulk, Entry, Header, Identifier, Message, Record, Row,
};
use crate::reference::right_index;

pub const DATE: u32 = 20260615;
pub const SENDER: &[u8; 8] = b"AAAALV22";
const MOST_CENTS: u64 = 99_999_999_999;

pub fn identifier(letter: char, index: usize) -> Identifier {
    padded(format!("{letter}SALARIES/2026-06/BATCH/{index:011}").as_bytes())
}

pub fn message(index: usize, receiver: &[u8], amount: u64) -> Message {
    let (identifier, receiver) = (identifier('M', index), padded(receiver));
    Message { identifier, receiver, amount, original: 0, reason: padded(b""), name: padded(b"") }
}

pub fn bulk(index: usize, messages: Vec<Message>) -> Bulk {
    let sum = messages.iter().fold(0u64, |sum, message| sum.wrapping_add(message.amount));
    let (identifier, sender, number) = (identifier('B', index), *SENDER, messages.len() as u64);
    Bulk { header: Header { kind: 1, identifier, sender, number, sum, date: DATE, marks: 3 }, messages }
}

/// Bulks with the messages shared out evenly among them.
fn bulks(count: usize, messages: usize, amount: u64) -> Vec<Bulk> {
    let from = |index: usize| messages * index / count;
    let of = |index| (from(index)..from(index + 1)).map(|at| message(at, b"BBBBLV22RIX", amount)).collect();
    (0..count).map(|index| bulk(index, of(index))).collect()
}

/// Breaks every bulk's marks, so that all messages fall and no search grows long.
pub fn falling(mut bulks: Vec<Bulk>) -> Vec<Bulk> {
    bulks.iter_mut().for_each(|bulk| bulk.header.marks = 7);
    bulks
}

/// Rows of which only the last two are ever found.
pub fn rows(count: usize) -> Vec<Row> {
    let row = |bic: &[u8]| Row { bic: padded(bic), first: WIDEST.0, last: WIDEST.1, kind: 5 };
    let mut rows: Vec<Row> = (2..count).map(|index| row(format!("BBBBLV2{index:04X}").as_bytes())).collect();
    rows.iter_mut().for_each(|row| row.last = DATE - 1);
    rows.extend([row(b"AAAALV22XXX"), row(b"BBBBLV22XXX")]);
    rows
}

pub fn register(used: usize, room: usize) -> Vec<u8> {
    let entry = |index| Entry { sender: *SENDER, identifier: identifier('E', index), tag: 1 };
    let mut register = Vec::new();
    write_section(&(0..used).map(entry).collect::<Vec<_>>(), &mut register);
    register.resize(4 + room * Entry::WIDTH, 0);
    register
}

pub fn call(rows: &[Row], register: Vec<u8>, bulks: &[Bulk]) -> Call {
    let mut table = Vec::new();
    write_section(rows, &mut table);
    let messages = bulks.iter().map(|bulk| bulk.messages.len()).sum();
    Call {
        date: DATE,
        sheet: write_bulks(bulks),
        table,
        index: right_index(&register),
        register,
        positions: write_positions(&vec![0; rows.len()]),
        report: vec![0x55; report_length(bulks.len(), messages)],
    }
}

/// A call whose only message repeats the entry at this index of a register in use up to `used`.
fn repeat(index: usize, used: usize, room: usize) -> Call {
    let mut bulks = bulks(1, 1, 100);
    bulks[0].messages[0].identifier = identifier('E', index);
    call(&rows(2), register(used, room), &bulks)
}

/// A call with 15,000 fallen messages and a position just so large.
fn stretched(position: i64) -> Call {
    let mut call = call(&rows(2), register(0, 15_001), &falling(bulks(1, 15_000, 1)));
    call.positions = write_positions(&[0, position]);
    call
}

/// A call with 15,000 fallen messages and a report space that differs from what is needed.
fn spaced(difference: isize) -> Call {
    let mut call = call(&rows(2), register(0, 15_001), &falling(bulks(1, 15_000, 1)));
    call.report.resize(call.report.len().saturating_add_signed(difference), 0x55);
    call
}

/// Meets every refusal after 6 as well: a kind 2, no room, a position without measure, no report.
fn and_later(mut call: Call) -> Call {
    call.sheet[4] = 2;
    call.register.truncate(4);
    call.positions = write_positions(&[i64::MIN, i64::MIN]);
    call.report.clear();
    call
}

/// 999 bulks of 15,000 messages in all, the most the refusals let through, but every message falls.
fn long(amount: u64) -> Call {
    call(&rows(2), register(0, 15_999), &falling(bulks(999, 15_000, amount)))
}

/// A call in which everything starts at the last slot, so that each search goes over all entries, round the end.
fn crowded(used: usize, messages: usize) -> Call {
    let room = used + messages + 1;
    let crowd = |letter: char, tag: u8| {
        // the end that is chosen replaces two digits
        let entry =
            move |index: usize| Entry { sender: *SENDER, identifier: identifier(letter, 100 * index), tag };
        (0..).filter_map(move |index| ending_at(2 * room - 1, 2 * room, &entry(index)))
    };
    let mut bulks = bulks(1, messages, 100);
    bulks[0].header.identifier = crowd('B', 2).next().expect("some end fits");
    bulks[0].messages.iter_mut().zip(crowd('M', 1)).for_each(|(message, to)| message.identifier = to);
    let entries = crowd('E', 1).map(|identifier| Entry { sender: *SENDER, identifier, tag: 1 });
    let mut register = Vec::new();
    write_section(&entries.take(used).collect::<Vec<_>>(), &mut register);
    register.resize(4 + room * Entry::WIDTH, 0);
    call(&rows(2), register, &bulks)
}

/// 10^18 less what 15,000 messages can move.
const EDGE: i64 = 1_000_000_000_000_000_000 - 15_000 * MOST_CENTS as i64;

/// A case with its name, made when it is needed.
pub type Limit = (&'static str, fn() -> Call);

/// Every limit of size in the rules, just kept and just passed. Each case alone is judged quickly.
pub const LIMITS: [Limit; 33] = [
    ("999 empty bulks", || call(&rows(2), register(0, 999), &bulks(999, 0, 0))),
    ("1,000 empty bulks", || call(&rows(2), register(0, 1_000), &bulks(1_000, 0, 0))),
    ("999 bulks of one message", || call(&rows(2), register(0, 1_998), &bulks(999, 999, 5))),
    ("1,000 bulks of one message", || call(&rows(2), register(0, 2_000), &bulks(1_000, 1_000, 5))),
    ("15,000 messages in one bulk", || call(&rows(2), register(0, 15_001), &falling(bulks(1, 15_000, 1)))),
    ("15,001 messages in one bulk", || call(&rows(2), register(0, 15_002), &falling(bulks(1, 15_001, 1)))),
    ("15,001 messages in three bulks", || call(&rows(2), register(0, 15_004), &falling(bulks(3, 15_001, 1)))),
    ("15,000 messages in 999 bulks", || long(1)),
    ("15,000 of the largest amounts", || long(u64::MAX)),
    ("15,000 of the largest amounts in one bulk", || {
        call(&rows(2), register(0, 15_001), &falling(bulks(1, 15_000, u64::MAX)))
    }),
    ("2,000 of the largest good amounts", || {
        call(&rows(2), register(0, 2_001), &bulks(1, 2_000, MOST_CENTS))
    }),
    ("8,192 rows", || call(&rows(8_192), register(0, 4), &bulks(1, 2, 5))),
    ("8,193 rows", || call(&rows(8_193), register(0, 4), &bulks(1, 2, 5))),
    ("room for 60,000 entries", || repeat(0, 1, 60_000)),
    ("room for 60,001 entries", || repeat(0, 1, 60_001)),
    ("59,998 entries, the last repeated", || repeat(59_997, 59_998, 60_000)),
    ("59,998 entries, the first repeated", || repeat(0, 59_998, 60_000)),
    ("59,998 entries, none repeated", || repeat(59_998, 59_998, 60_000)),
    ("59,999 entries, one free", || repeat(0, 59_999, 60_000)),
    ("60,000 entries and an empty sheet", || call(&rows(2), register(60_000, 60_000), &[])),
    ("60,000 entries and an empty bulk", || call(&rows(2), register(60_000, 60_000), &bulks(1, 0, 0))),
    ("1,000 bulks and a byte left over", || {
        let mut call = call(&rows(2), register(0, 1_000), &bulks(1_000, 0, 0));
        call.sheet.push(0);
        call
    }),
    ("1,000 bulks and every later refusal", || {
        and_later(call(&rows(2), register(0, 0), &bulks(1_000, 0, 0)))
    }),
    ("15,001 messages and every later refusal", || {
        and_later(call(&rows(2), register(0, 0), &bulks(3, 15_001, 1)))
    }),
    ("a position at the edge", || stretched(EDGE)),
    ("a position past the edge", || stretched(EDGE + 1)),
    ("a negative position at the edge", || stretched(-EDGE)),
    ("a negative position past the edge", || stretched(-EDGE - 1)),
    ("a long report one byte short", || spaced(-1)),
    ("a long report with a byte to spare", || spaced(1)),
    ("one entry and one message at the last slot", || crowded(1, 1)),
    ("1,500 entries and 300 messages at the last slot", || crowded(1_500, 300)),
    ("a register one entry short of 15,001", || {
        call(&rows(2), register(0, 15_000), &falling(bulks(1, 15_000, 1)))
    }),
];

/// The largest work a call can be: every message searches a long register and the whole table, and is accepted.
pub fn full() -> Call {
    call(&rows(8_192), register(44_000, 60_000), &bulks(999, 15_000, 123))
}

//! Sweeps that leave nothing to chance: every date around the limits, every byte at every place of a field, every byte in which an
//! entry may differ from a message's.

use super::limits::{bulk, call, falling, identifier, message, register, rows, Limit, DATE, SENDER};
use crate::call::Call;
use crate::records::{padded, Bulk, Entry, Identifier, Message, Record, COUNT};
use crate::reference::is_date;

/// Every month and day, and some that are none, of the years that matter.
pub fn dates() -> impl Iterator<Item = u32> {
    let years = [0, 1999, 2000, 2023, 2024, 2100, 2200, 2299, 2300, 2400];
    let days = |year: u32| {
        (0..=14).flat_map(move |month| (0..=32).map(move |day| year * 10_000 + month * 100 + day))
    };
    years.into_iter().flat_map(days)
}

/// A file on this date with bulks of these value dates, each of so many messages.
fn dated(date: u32, value_dates: &[u32], messages: usize) -> Call {
    let dated = |(index, date): (usize, &u32)| {
        let messages = (0..messages).map(|at| message(index + at, b"BBBBLV22RIX", 100)).collect();
        let mut bulk = bulk(index, messages);
        bulk.header.date = *date;
        bulk
    };
    let bulks: Vec<Bulk> = value_dates.iter().enumerate().map(dated).collect();
    Call { date, ..call(&rows(2), register(0, bulks.len() * (1 + messages)), &bulks) }
}

/// A file on this date of a bulk that is dated so, and of two dated a day before and after it.
pub fn on(date: u32) -> Call {
    dated(date, &[date, date.wrapping_sub(1), date + 1], 1)
}

/// As value dates of empty bulks every day of the years, the numbers beside those that begin and end a month, and a weekday on either
/// side of the years. The date of each file is its first day.
pub fn value_dates() -> impl Iterator<Item = Call> {
    const MOST_BULKS: usize = 999;
    let near = |date: &u32| [date - 1, *date, date + 1].into_iter().any(is_date);
    let all: Vec<u32> = (20000100..=22991232).filter(near).chain([19991231, 23000102]).collect();
    let files: Vec<Vec<u32>> = all.chunks(MOST_BULKS).map(<[u32]>::to_vec).collect();
    files.into_iter().map(|dates| {
        let day = dates.iter().copied().find(|date| is_date(*date));
        dated(day.unwrap_or(DATE), &dates, 0)
    })
}

/// One field with each byte in turn at each of these places.
fn every_byte<const WIDTH: usize>(field: [u8; WIDTH], places: &[usize]) -> Vec<[u8; WIDTH]> {
    let changed = |place: usize, byte: u8| {
        let mut field = field;
        field[place] = byte;
        field
    };
    places.iter().flat_map(|place| (0..=255).map(move |byte| changed(*place, byte))).collect()
}

/// A call of one bulk in which all messages fall, so that it is judged quickly; their own faults still show.
fn shows(kind: u8, messages: Vec<Message>) -> Call {
    let mut bulks = falling(vec![bulk(0, messages)]);
    bulks[0].header.kind = kind;
    let needed = 1 + bulks[0].messages.len();
    call(&rows(2), register(0, needed), &bulks)
}

fn good() -> Message {
    message(0, b"BBBBLV22RIX", 100)
}

fn good_return() -> Message {
    Message { original: 100, reason: *b"AC01", name: *b"pacs.008.001.08", ..good() }
}

/// A message beside every entry that differs from its own in one byte, and beside its own entry if that is `there`. What is added to
/// the byte is the number of slots, so that by an index, too, the search goes over all of them.
fn beside(sought: Identifier, there: bool) -> Call {
    // the others, its own, and what the file adds
    const ROOM: usize = Entry::WIDTH + 1 + 2;
    const SLOTS: u8 = 2 * ROOM as u8;
    let mut own = Vec::new();
    Entry { sender: *SENDER, identifier: sought, tag: 1 }.write(&mut own);
    let used = Entry::WIDTH + usize::from(there);
    let mut entries = (used as u32).to_be_bytes().to_vec();
    for place in 0..Entry::WIDTH {
        let mut other = own.clone();
        other[place] += SLOTS;
        entries.extend(other);
    }
    // without it this place is not in use
    entries.extend(own);
    entries.resize(COUNT + ROOM * Entry::WIDTH, 0);
    call(&rows(2), entries, &[bulk(0, vec![Message { identifier: sought, ..good() }])])
}

/// Every one of so many entries repeated, and one that is not there.
fn repeats(used: usize) -> Call {
    let repeat = |index| Message { identifier: identifier('E', index), ..good() };
    call(&rows(2), register(used, 2 * used + 2), &falling(vec![bulk(0, (0..=used).map(repeat).collect())]))
}

/// Empty bulks of these kinds.
fn kinds(kinds: &[u8]) -> Call {
    let mut bulks: Vec<Bulk> = kinds.iter().enumerate().map(|(index, _)| bulk(index, Vec::new())).collect();
    bulks.iter_mut().zip(kinds).for_each(|(bulk, kind)| bulk.header.kind = *kind);
    call(&rows(2), register(0, bulks.len()), &bulks)
}

pub const SWEEPS: [Limit; 16] = [
    ("every byte in a short identifier", || {
        let identifiers = every_byte(padded(b"AAA"), &[0, 1, 2, 3]);
        shows(1, identifiers.into_iter().map(|identifier| Message { identifier, ..good() }).collect())
    }),
    ("every byte at the end of a long identifier", || {
        let identifiers = every_byte([b'A'; 35], &[0, 33, 34]);
        shows(1, identifiers.into_iter().map(|identifier| Message { identifier, ..good() }).collect())
    }),
    ("every byte in a BIC", || {
        let receivers = every_byte(*b"BBBBLV22RIX", &[0, 1, 2, 3, 4, 5, 6, 7, 8, 9, 10]);
        shows(1, receivers.into_iter().map(|receiver| Message { receiver, ..good() }).collect())
    }),
    ("every byte in a payment's reason and name", || {
        let reasons = every_byte([b' '; 4], &[0, 3]).into_iter().map(|reason| Message { reason, ..good() });
        let names = every_byte([b' '; 15], &[0, 14]).into_iter().map(|name| Message { name, ..good() });
        shows(1, reasons.chain(names).collect())
    }),
    ("every byte in a return's reason and name", || {
        let reasons = every_byte(*b"RR01", &[0, 1, 2, 3]).into_iter();
        let names = every_byte(*b"pacs.008.001.02", &[0, 7, 13, 14]).into_iter();
        let reasons = reasons.map(|reason| Message { reason, ..good_return() });
        shows(3, reasons.chain(names.map(|name| Message { name, ..good_return() })).collect())
    }),
    ("a payment after a return and then a kind 4", || kinds(&[3, 1, 4])),
    ("a long identifier beside others that differ in one byte", || beside(identifier('M', 0), false)),
    ("a long identifier and others that differ in one byte", || beside(identifier('M', 0), true)),
    ("a short identifier beside others that differ in one byte", || beside(padded(b"A"), false)),
    ("a short identifier and others that differ in one byte", || beside(padded(b"A"), true)),
    ("one entry repeated", || repeats(1)),
    ("7 entries repeated", || repeats(7)),
    ("15 entries repeated", || repeats(15)),
    ("16 entries repeated", || repeats(16)),
    ("17 entries repeated", || repeats(17)),
    ("50 entries repeated", || repeats(50)),
];

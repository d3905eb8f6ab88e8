//! Tables that would show a row found in a wrong way: rows that share a slot, repeat a BIC or do not count. Every receiver is paid an
//! amount of its own, so that the positions tell which row was found.

use std::collections::BTreeSet;

use super::limits::{bulk, call, message, register, Limit, DATE, SENDER};
use super::parts::WIDEST;
use super::rows::{banks_at, bics_at, spelt, start, starting_at, LAST, SLOTS};
use crate::call::Call;
use crate::random::Random;
use crate::records::{padded, Bic, Bulk, Row};

const KINDS: [u8; 4] = [5, 0, 6, 20];
/// The first four count on the date, the others do not.
const WINDOWS: [(u32, u32); 7] = [
    WIDEST,
    (DATE, DATE),
    (DATE, WIDEST.1),
    (WIDEST.0, DATE),
    (DATE + 1, WIDEST.1),
    (WIDEST.0, DATE - 1),
    (DATE + 1, DATE - 1),
];

fn row(bic: Bic, (first, last): (u32, u32), kind: u8) -> Row {
    Row { bic, first, last, kind }
}

fn branch(bic: &Bic, end: &[u8; 3]) -> Bic {
    padded(&[&bic[..8], end].concat())
}

/// These rows, behind them the sender's, and a message for each receiver.
fn asked(mut rows: Vec<Row>, receivers: impl IntoIterator<Item = Bic>) -> Call {
    rows.push(row(padded(&[&SENDER[..], b"XXX"].concat()), WIDEST, 5));
    let paid = |(index, receiver): (usize, Bic)| message(index, &receiver, 1 + index as u64);
    let messages: Vec<_> = receivers.into_iter().enumerate().map(paid).collect();
    call(&rows, register(0, messages.len() + 1), &[bulk(0, messages)])
}

/// A row for each BIC, of one kind after the other.
fn counting(bics: &[Bic]) -> Vec<Row> {
    bics.iter().zip(KINDS.iter().cycle()).map(|(bic, kind)| row(*bic, WIDEST, *kind)).collect()
}

/// Rows for every second BIC, and messages for all of them and for a branch of each that has no row.
fn every_second(bics: &[Bic]) -> Call {
    let rows: Vec<Bic> = bics.iter().copied().step_by(2).collect();
    let branches = bics.iter().map(|bic| branch(bic, b"QQQ"));
    asked(counting(&rows), bics.iter().copied().chain(branches))
}

/// Rows at a slot and at the one behind it, in turn, each of them asked for.
fn neighbours(slot: usize) -> Call {
    let pairs = bics_at(slot).zip(bics_at((slot + 1) % SLOTS));
    let bics: Vec<Bic> = pairs.take(50).flat_map(|(one, next)| [one, next]).collect();
    asked(counting(&bics), bics)
}

/// Banks at a slot, each of which sends to the one before it.
fn senders(slot: usize, count: usize) -> Call {
    let banks: Vec<Bic> = banks_at(slot).take(count).collect();
    let rows: Vec<Row> = banks.iter().map(|bank| row(*bank, WIDEST, 5)).collect();
    let bulks: Vec<Bulk> = (0..count)
        .map(|index| {
            let before = banks[(index + count - 1) % count];
            let mut bulk = bulk(index, vec![message(index, &before, 1 + index as u64)]);
            bulk.header.sender.copy_from_slice(&banks[index][..8]);
            bulk
        })
        .collect();
    call(&rows, register(0, 2 * count), &bulks)
}

/// BICs that start at the slot and differ from a few of them in three neighbouring characters, at every place; those few stand behind
/// the others or, unless `there`, have no row.
fn beside(slot: usize, there: bool) -> Call {
    let few: BTreeSet<Bic> = bics_at(slot).step_by(7).take(8).collect();
    let alike = |bic: &Bic| (0..=8).flat_map(|place| starting_at(slot, *bic, place)).collect::<Vec<_>>();
    let others: BTreeSet<Bic> = few.iter().flat_map(alike).filter(|bic| !few.contains(bic)).collect();
    let all: Vec<Bic> = others.iter().chain(&few).copied().collect();
    asked(counting(&all[..if there { all.len() } else { others.len() }]), all)
}

/// All there is to say about a row but its BIC, where only kind 0 matters.
fn all_rows() -> impl Iterator<Item = ((u32, u32), u8)> + Clone {
    WINDOWS.into_iter().flat_map(|window| [(window, 0), (window, 5)])
}

/// Two rows of one BIC, of every window and kind each; a BIC and one of its branches are asked for.
fn two_rows(bics: impl Iterator<Item = Bic>) -> Call {
    let pairs = all_rows().flat_map(|first| all_rows().map(move |second| (first, second)));
    let pairs: Vec<_> = bics.zip(pairs).collect();
    let first = pairs.iter().map(|(bic, (first, _))| row(*bic, first.0, first.1));
    let second = pairs.iter().map(|(bic, (_, second))| row(*bic, second.0, second.1));
    let receivers = pairs.iter().flat_map(|(bic, _)| [*bic, branch(bic, b"QQQ")]);
    asked(first.chain(second).collect(), receivers)
}

/// A branch's row and its head office's, of every window and kind each or not there; both and another branch are asked for.
fn branches(slot: usize) -> Call {
    let maybe = || all_rows().map(Some).chain([None]);
    let pairs = maybe().flat_map(|own| maybe().map(move |head| (own, head)));
    let (mut rows, mut receivers) = (Vec::new(), Vec::new());
    for (bank, (own, head)) in banks_at(slot).zip(pairs) {
        let bic = starting_at(slot, bank, 8).find(|bic| *bic != bank).unwrap_or(branch(&bank, b"RIX"));
        rows.extend(head.map(|(window, kind)| row(bank, window, kind)));
        rows.extend(own.map(|(window, kind)| row(bic, window, kind)));
        receivers.extend([bic, bank, branch(&bank, b"QQQ")]);
    }
    asked(rows, receivers)
}

/// Head offices and one branch of each.
fn numbered(count: usize) -> Vec<Bic> {
    let bic = |index: usize| {
        let end: &[u8] = if index % 2 == 0 { b"LV22XXX" } else { b"LV22RIX" };
        padded(&[&spelt(index / 2, 4), end].concat())
    };
    // AAAA is the sender
    (2..count + 2).map(bic).collect()
}

/// So many rows with the sender's, all different and each of them asked for, and by some messages only their head office.
fn different(count: usize) -> Call {
    let bics = numbered(count - 1);
    let branches = bics.iter().step_by(2).map(|bic| branch(bic, b"QQQ"));
    asked(counting(&bics), bics.iter().copied().chain(branches))
}

/// So many rows with the sender's, of few BICs, most of them not counting or not the first.
fn repeated(count: usize) -> Call {
    let random = &mut Random::of(1, 1);
    let bics = numbered(count / 4);
    let rows = (1..count).map(|_| row(random.pick(&bics), random.pick(&WINDOWS), random.pick(&KINDS)));
    asked(rows.collect(), bics.iter().copied())
}

/// So many rows with the sender's that start at one slot, and messages for BICs that differ in one byte from some of the rows.
fn long_chain(count: usize) -> Call {
    let bics: Vec<Bic> = bics_at(LAST).take(count - 1).collect();
    let late = bics.iter().rev().step_by(17).take(8);
    let alike = late.flat_map(|bic| {
        (0..bic.len()).map(|place| {
            let mut other = *bic;
            other[place] = if other[place] == b'M' { b'N' } else { b'M' };
            other
        })
    });
    let receivers = alike.chain(bics.iter().copied().step_by(37)).chain(bics.last().copied());
    asked(counting(&bics), receivers)
}

/// Tables of 0, 1 and up to 8,192 rows.
pub const ROUTES: [Limit; 20] = [
    ("no row", || call(&[], register(0, 2), &[bulk(0, vec![message(0, b"AAAALV22XXX", 1)])])),
    ("one row", || asked(Vec::new(), [*b"AAAALV22XXX", *b"AAAALV22RIX", *b"AAAALV23XXX", *b"BAAALV22XXX"])),
    ("two rows at the last slot", || every_second(&bics_at(LAST).take(4).collect::<Vec<_>>())),
    ("rows at the last slot", || every_second(&bics_at(LAST).take(80).collect::<Vec<_>>())),
    ("rows at the last slot but one", || every_second(&bics_at(LAST - 1).take(80).collect::<Vec<_>>())),
    ("rows at the first slot", || every_second(&bics_at(0).take(80).collect::<Vec<_>>())),
    ("rows at the last slot and the first", || neighbours(LAST)),
    ("rows at two slots", || neighbours(7_000)),
    ("senders at the last slot", || senders(LAST, 30)),
    ("senders at the first slot", || senders(0, 30)),
    ("BICs beside others that differ in three characters", || beside(start(b"AAAALV22XXX"), false)),
    ("BICs and others that differ in three characters", || beside(LAST, true)),
    ("two rows of every BIC", || two_rows(numbered(300).into_iter())),
    ("two rows of every BIC at the last slot", || two_rows(bics_at(LAST))),
    ("two rows of every head office at the last slot", || two_rows(banks_at(LAST))),
    ("branches and head offices at the last slot", || branches(LAST)),
    ("300 rows", || different(300)),
    ("8,192 rows at one slot", || long_chain(8_192)),
    ("8,192 different rows", || different(8_192)),
    ("8,192 rows of some 2,000 BICs", || repeated(8_192)),
];

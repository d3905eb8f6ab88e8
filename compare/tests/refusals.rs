//! The eleven refusals, each just met and just missed, and their order. `answered` checks that none writes.

mod support;

use compare::call::{write_positions, Call};
use support::*;

fn good() -> Call {
    one_bulk(&[payment("T1", "BBBBLV22XXX", 5)])
}

fn on(date: u32) -> u32 {
    answered(&Call { date, ..call(&[]) })
}

/// A file of so many empty bulks.
fn bulks(count: usize) -> Call {
    call(&vec![(header("D1", "AAAALV22", 0, 0), vec![]); count])
}

/// A file of one bulk with so many messages, which all fall.
fn messages(count: usize) -> Call {
    let mut header = header("D1", "AAAALV22", count as u64, count as u64);
    header[MARKS] = 0;
    call(&[(header, vec![payment("T1", "BBBBLV22XXX", 1); count])])
}

#[test]
fn refusal_1_dates() {
    for date in [20000101, 20240229, 20000229, 20991231, 22991231, 20260228, 20260430, 20261231] {
        assert_eq!(on(date), 0, "{date}");
    }
    for date in [19991231, 20230229, 21000229, 23000101, 20260431, 20260600, 20261301, 20260001, 0, u32::MAX]
    {
        assert_eq!(on(date), 1, "{date}");
    }
}

#[test]
fn refusal_2_tables() {
    let with =
        |table: Vec<u8>, rows: usize| answered(&Call { table, positions: vec![0; 8 * rows], ..call(&[]) });
    let rows = |count: usize| section(&vec![row("AAAALV22XXX", 5); count]);
    assert_eq!((with(rows(0), 0), with(rows(8_192), 8_192), with(rows(8_193), 8_193)), (0, 0, 2));
    assert_eq!((with(vec![], 0), with(vec![0; 3], 0)), (2, 2));
    assert_eq!((with([rows(1), vec![0]].concat(), 1), with(rows(1)[..23].to_vec(), 1)), (2, 2));
    let count = |count: u32| [count.to_be_bytes().to_vec(), row("AAAALV22XXX", 5)].concat();
    assert_eq!([0, 1, 2, 1 + (1 << 30), u32::MAX].map(|stated| with(count(stated), 1)), [2, 0, 2, 2, 2]);
    for kind in 0..=255 {
        let expected = if [0, 5, 6, 20].contains(&kind) { 0 } else { 2 };
        assert_eq!(with(section(&[row("A", 5), row("A", kind)]), 2), expected, "{kind}");
    }
}

#[test]
fn refusal_3_positions() {
    for (length, number) in [(0, 3), (23, 3), (24, 0), (25, 3), (32, 3)] {
        assert_eq!(answered(&Call { positions: vec![0; length], ..good() }), number, "{length}");
    }
}

#[test]
fn refusal_4_registers() {
    let with = |register: Vec<u8>| answered(&Call { register, ..call(&[]) });
    for (length, number) in [(0, 4), (3, 4), (4, 0), (5, 4), (47, 4), (48, 0), (49, 4)] {
        assert_eq!(with(vec![0; length]), number, "{length}");
    }
    assert_eq!((with(register(&[], 60_000)), with(register(&[], 60_001))), (0, 4));
    let used = |used: u32| [used.to_be_bytes().to_vec(), vec![0; 88]].concat();
    assert_eq!([0, 2, 3, 1 << 31, u32::MAX].map(|number| with(used(number))), [0, 0, 4, 4, 4]);
}

#[test]
fn refusal_5_sheets() {
    let whole = good().sheet;
    let with = |sheet: Vec<u8>| answered(&Call { sheet, ..good() });
    for length in 0..whole.len() {
        assert_eq!(with(whole[..length].to_vec()), 5, "{length}");
    }
    assert_eq!((with(whole.clone()), with([whole.clone(), vec![0]].concat())), (0, 5));
    let recount = |at: usize, count: u32| {
        let mut sheet = whole.clone();
        sheet[at..at + 4].copy_from_slice(&count.to_be_bytes());
        with(sheet)
    };
    assert_eq!([0, 2, u32::MAX].map(|count| recount(0, count)), [5, 5, 5]);
    assert_eq!([0, 2, u32::MAX].map(|count| recount(69, count)), [5, 5, 5]);
}

#[test]
fn refusal_6_sizes() {
    assert_eq!((answered(&bulks(999)), answered(&bulks(1_000))), (0, 6));
    assert_eq!((answered(&messages(15_000)), answered(&messages(15_001))), (0, 6));
    let half = messages(7_500);
    let two = |count| {
        let bulk = |count| (header("D1", "AAAALV22", 0, 0), vec![payment("T1", "BBBBLV22XXX", 1); count]);
        answered(&call(&[bulk(7_500), bulk(count)]))
    };
    assert_eq!((answered(&half), two(7_500), two(7_501)), (0, 0, 6));
}

#[test]
fn refusals_7_and_8_kinds() {
    let with = |kinds: &[u8]| {
        let mut call = bulks(kinds.len());
        kinds.iter().enumerate().for_each(|(bulk, kind)| call.sheet[4 + 65 * bulk + KIND] = *kind);
        answered(&call)
    };
    assert_eq!([[1, 1, 3], [1, 3, 3], [3, 3, 3], [1, 1, 1]].map(|kinds| with(&kinds)), [0; 4]);
    assert_eq!([[3, 1, 1], [1, 3, 1], [3, 1, 3]].map(|kinds| with(&kinds)), [8; 3]);
    assert_eq!([[1, 1, 0], [2, 3, 3], [1, 255, 3], [3, 1, 4]].map(|kinds| with(&kinds)), [7; 4]);
}

#[test]
fn refusal_9_room() {
    let with = |used: usize, room: usize| {
        let entries = vec![entry("CCCCLV22", "C", 1); used];
        answered(&Call { register: register(&entries, room), ..good() })
    };
    assert_eq!((with(0, 2), with(0, 1), with(5, 7), with(5, 6), with(0, 0)), (0, 9, 0, 9, 9));
}

#[test]
fn refusal_10_positions() {
    let with = |position: i64, messages: usize| {
        let mut call = one_bulk(&vec![payment("T1", "BBBBLV22XXX", 5); messages]);
        call.positions = write_positions(&[0, 0, position]);
        answered(&call)
    };
    let most = 1_000_000_000_000_000_000;
    assert_eq!([most, -most, most + 1, -most - 1].map(|position| with(position, 0)), [0, 0, 10, 10]);
    // two messages may move 199,999,999,998 cents
    let edge = most - 199_999_999_998;
    assert_eq!([edge, -edge, edge + 1, -edge - 1].map(|position| with(position, 2)), [0, 0, 10, 10]);
    assert_eq!([i64::MIN, i64::MAX, i64::MIN + 1].map(|position| with(position, 0)), [10; 3]);
}

#[test]
fn refusal_11_report() {
    // one bulk and one message take 4 + 68 + 38 bytes
    for (length, number) in [(0, 11), (109, 11), (110, 0), (111, 0)] {
        assert_eq!(answered(&Call { report: vec![7; length], ..good() }), number, "{length}");
    }
}

#[test]
fn the_first_refusal_that_holds_is_the_answer() {
    // each step mends one thing; what is left wrong is named next
    let mut call = bulks(1_000);
    call.sheet[4 + KIND] = 3;
    call.sheet[4 + 2 * 65 + KIND] = 2;
    call.sheet.push(0);
    call.date = 20260631;
    call.table.push(0);
    call.positions = write_positions(&[0, 0, i64::MIN, 0]);
    call.register = vec![0, 0, 0, 1];
    call.report.clear();
    assert_eq!(answered(&call), 1);
    call.date = DATE;
    assert_eq!(answered(&call), 2);
    call.table.pop();
    assert_eq!(answered(&call), 3);
    call.positions.truncate(24);
    assert_eq!(answered(&call), 4);
    call.register = vec![0; 4];
    assert_eq!(answered(&call), 5);
    call.sheet.pop();
    assert_eq!(answered(&call), 6);
    let mut call = Call { sheet: bulks(3).sheet, ..call };
    call.sheet[4 + KIND] = 3;
    call.sheet[4 + 2 * 65 + KIND] = 2;
    assert_eq!(answered(&call), 7);
    call.sheet[4 + 2 * 65 + KIND] = 3;
    assert_eq!(answered(&call), 8);
    call.sheet[4 + KIND] = 1;
    assert_eq!(answered(&call), 9);
    call.register = register(&[], 3);
    assert_eq!(answered(&call), 10);
    call.positions = vec![0; 24];
    assert_eq!(answered(&call), 11);
    call.report = vec![0; 4 + 3 * 68];
    assert_eq!(answered(&call), 0);
}

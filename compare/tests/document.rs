//! The whole case, byte by byte, and what a judgement changes.

mod support;

use support::*;

fn whole_case() -> compare::call::Call {
    let messages = [
        payment("T1", "BBBBLV22RIX", 100),
        payment("T2", "BBBBLV22KUL", 200),
        payment("T1", "BBBBLV22XXX", 300),
    ];
    let mut call = one_bulk(&messages);
    call.register = register(&[], 8);
    call
}

#[test]
fn the_whole_case_byte_by_byte() {
    let mut call = whole_case();
    call.report.extend([0xEE; 5]);
    let answer = judge(&mut call);
    assert_eq!((answer.number, answer.length), (0, 186));

    let line =
        |identifier, outcome, faults| [text(identifier, 35), vec![outcome], number(faults, 2)].concat();
    let tally = [number(1, 4), number(100, 8), number(2, 4), number(500, 10)].concat();
    let lines = [line("T1", 0, 0), line("T2", 1, 8), line("T1", 1, 2)];
    let report = [number(1, 4), line("D1", 1, 0), tally, section(&lines), vec![0xEE; 5]].concat();
    assert_eq!(call.report, report);

    let entries = [entry("AAAALV22", "T1", 1), entry("AAAALV22", "D1", 2)];
    assert_eq!(call.register, register(&entries, 8));
    let positions = [(-100i64).to_be_bytes(), 100i64.to_be_bytes(), 0i64.to_be_bytes()].concat();
    assert_eq!(call.positions, positions);
}

#[test]
fn entries_not_in_use_keep_their_bytes() {
    let mut call = whole_case();
    call.register[4..].fill(0xAB);
    judge(&mut call);
    assert_eq!(call.register[..4], [0, 0, 0, 2]);
    assert_eq!(call.register[4..92], [entry("AAAALV22", "T1", 1), entry("AAAALV22", "D1", 2)].concat());
    assert!(call.register[92..].iter().all(|byte| *byte == 0xAB));
}

#[test]
fn a_sheet_without_bulks_is_no_refusal() {
    let mut call = call(&[]);
    assert_eq!(call.sheet, [0; 4]);
    let answer = judge(&mut call);
    assert_eq!((answer.number, answer.length), (0, 4));
    assert_eq!(call.report, [0; 4]);
}

#[test]
fn one_row_may_pay_itself() {
    let mut call = one_bulk(&[payment("T1", "AAAALV22RIX", 7)]);
    judge(&mut call);
    assert_eq!(call.positions, [0; 24]);
    assert_eq!(call.register, register(&[entry("AAAALV22", "T1", 1), entry("AAAALV22", "D1", 2)], 2));
}

#[test]
fn a_bulk_fault_records_and_moves_nothing() {
    let messages = vec![payment("T1", "BBBBLV22XXX", 5), payment("T1", "CCCCLV22XXX", 0)];
    let mut header = header("D1", "AAAALV22", 2, 5);
    header[MARKS] = 7;
    let mut call = call(&[(header, messages)]);
    let before = call.clone();
    assert_eq!(message_lines(&call), [(2, 0), (2, 8 + 16)]);
    assert_eq!(bulk_lines(&call), [(2, 1)]);
    judge(&mut call);
    assert_eq!((&call.register, &call.positions), (&before.register, &before.positions));
    assert_eq!(call.report[4 + 38..4 + 64], [number(0, 12), number(2, 4), number(5, 10)].concat());
}

#[test]
fn the_register_grows_between_messages_and_between_bulks() {
    let bulk = |identifier, message| {
        (header(identifier, "AAAALV22", 1, 5), vec![payment(message, "BBBBLV22XXX", 5)])
    };
    let call = call(&[bulk("D1", "T1"), bulk("D1", "T2"), bulk("D2", "T1"), bulk("D2", "T3")]);
    // the second repeats a bulk; the third's message is a repeat, so D2 is still free for the fourth
    assert_eq!(bulk_lines(&call), [(0, 0), (2, 16), (2, 0), (0, 0)]);
}

#[test]
fn ten_bytes_hold_what_eight_cannot() {
    let most = u64::MAX;
    let mut call = one_bulk(&[payment("T1", "BBBBLV22XXX", most), payment("T2", "BBBBLV22XXX", most)]);
    judge(&mut call);
    // 2 x (2^64 - 1) = 2^65 - 2, and the sum stated wraps, so both fall
    assert_eq!(call.report[4 + 35..4 + 38], [2, 0, 128]);
    assert_eq!(call.report[4 + 54..4 + 64], [0, 1, 255, 255, 255, 255, 255, 255, 255, 254]);
}

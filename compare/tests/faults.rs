//! Each fault of a bulk and of a message, alone and beside others.

mod support;

use support::*;

/// The faults of one bulk with one good message, after a change to its header.
fn bulk_faults(change: impl Fn(&mut Vec<u8>)) -> u16 {
    let mut header = header("D1", "AAAALV22", 1, 5);
    change(&mut header);
    bulk_lines(&call(&[(header, vec![payment("T1", "BBBBLV22XXX", 5)])]))[0].1
}

fn put(at: usize, bytes: Vec<u8>) -> impl Fn(&mut Vec<u8>) {
    move |header| header[at..at + bytes.len()].copy_from_slice(&bytes)
}

/// The faults of one message alone in its bulk.
fn message_faults(message: Vec<u8>) -> u16 {
    message_lines(&one_bulk(&[message]))[0].1
}

fn return_faults(message: Vec<u8>) -> u16 {
    let mut call = one_bulk(&[message]);
    call.sheet[4 + KIND] = 3;
    message_lines(&call)[0].1
}

fn identifier_faults(identifier: &[u8]) -> u16 {
    let mut message = payment("", "BBBBLV22XXX", 5);
    message[..identifier.len()].copy_from_slice(identifier);
    message_faults(message)
}

#[test]
fn bulk_bits_alone() {
    assert_eq!(bulk_faults(|_| ()), 0);
    for marks in (0..=255).filter(|marks| *marks != 3) {
        assert_eq!(bulk_faults(put(MARKS, vec![marks])), 1);
    }
    assert_eq!(bulk_faults(put(36, text("ZZZZLV22", 8))), 2);
    assert_eq!(bulk_faults(put(VALUE_DATE, number(20260616, 4))), 4);
    assert_eq!(bulk_faults(put(1, text("/D", 35))), 8);
    assert_eq!(bulk_faults(put(STATED_NUMBER, number(2, 8))), 64);
    assert_eq!(bulk_faults(put(STATED_NUMBER, number((1 << 32) + 1, 8))), 64);
    assert_eq!(bulk_faults(put(STATED_SUM, number(6, 8))), 128);
    let empty = call(&[(header("D1", "AAAALV22", 0, 0), vec![])]);
    assert_eq!(bulk_lines(&empty), [(2, 32)]);
}

/// The faults of a bulk of this value date in a call of another date or of the same.
fn dated(date: u32, value_date: u32) -> u16 {
    let mut header = header("D1", "AAAALV22", 1, 5);
    put(VALUE_DATE, number(value_date.into(), 4))(&mut header);
    let mut call = call(&[(header, vec![payment("T1", "BBBBLV22XXX", 5)])]);
    call.date = date;
    bulk_lines(&call)[0].1
}

#[test]
fn a_value_date_is_open_and_that_of_the_call() {
    // a Saturday, a Sunday, and on weekdays New Year's Day, Good Friday, Easter Monday, 1 May, 25 and 26 December
    let closed = [20260613, 20260614, 20270101, 20260403, 20260406, 20260501, 20261225, 20281226];
    for date in closed {
        assert_eq!(dated(date, date), 256, "{date}");
        assert_eq!(dated(20260615, date), 260, "{date}");
        assert_eq!(dated(date, 20260615), 4, "{date}");
    }
    // the days beside them
    let open =
        [20260612, 20260615, 20261231, 20260402, 20260407, 20260430, 20260504, 20261224, 20261228, 20281227];
    for date in open {
        assert_eq!(dated(date, date), 0, "{date}");
        assert_eq!(dated(20260616, date), 4, "{date}");
    }
    // no dates, and weekdays on either side of the years
    for date in [20260230, 20260600, 20261301, 0, u32::MAX, 19991231, 23000102] {
        assert_eq!(dated(20260615, date), 260, "{date}");
        assert_eq!(dated(20260614, date), 260, "{date}");
    }
}

#[test]
fn no_fault_of_a_bulk_hides_another() {
    let mut header = header("/D", "ZZZZLV22", 1, 1);
    put(MARKS, vec![0])(&mut header);
    put(VALUE_DATE, number(20260614, 4))(&mut header);
    let mut call = call(&[(header, vec![])]);
    call.register = register(&[entry("ZZZZLV22", "/D", 2)], 2);
    assert_eq!(bulk_lines(&call), [(2, 511)]);
}

#[test]
fn the_sender_needs_a_first_counting_row_of_kind_5() {
    let faults = |rows: &[Vec<u8>]| {
        let mut call = one_bulk(&[payment("T1", "BBBBLV22XXX", 5)]);
        call.table = section(rows);
        call.positions = vec![0; 8 * rows.len()];
        bulk_lines(&call)[0].1
    };
    assert_eq!(faults(&[row("AAAALV22XXX", 5)]), 0);
    for kind in [0, 6, 20] {
        assert_eq!(faults(&[row("AAAALV22XXX", kind), row("AAAALV22XXX", 5)]), 2);
    }
    assert_eq!(faults(&[row_between("AAAALV22XXX", 20260616, 20991231, 0), row("AAAALV22XXX", 5)]), 0);
    assert_eq!(faults(&[row("AAAALV22RIX", 5), row("AAAALV22", 5)]), 2);
}

#[test]
fn a_repeat_bulk_with_a_wrong_sum() {
    let mut call = one_bulk(&[payment("T1", "BBBBLV22XXX", 5)]);
    call.register = register(&[entry("AAAALV22", "D1", 2)], 3);
    assert_eq!(bulk_lines(&call), [(2, 16)]);
    call.sheet[4 + STATED_SUM + 7] = 6;
    assert_eq!(bulk_lines(&call), [(2, 144)]);
}

#[test]
fn entries_of_another_sender_or_tag_do_not_count() {
    let faults = |entries: &[Vec<u8>]| {
        let mut call = one_bulk(&[payment("T1", "BBBBLV22XXX", 5)]);
        call.register = register(entries, 2 + entries.len());
        (bulk_lines(&call)[0].1, message_lines(&call)[0].1)
    };
    let others = [
        entry("AAAALV22", "T1", 2),
        entry("AAAALV22", "D1", 1),
        entry("BBBBLV22", "T1", 1),
        entry("BBBBLV22", "D1", 2),
        entry("AAAALV22", "T1 2", 1),
    ];
    assert_eq!(faults(&others), (0, 0));
    assert_eq!(faults(&[entry("AAAALV22", "T1", 1)]), (0, 2));
    assert_eq!(faults(&[entry("AAAALV22", "D1", 2)]), (16, 0));
}

#[test]
fn an_entry_past_those_in_use_does_not_count() {
    let mut call = one_bulk(&[payment("T1", "BBBBLV22XXX", 5)]);
    call.register = register(&[entry("AAAALV22", "T1", 1), entry("AAAALV22", "D1", 2)], 2);
    call.register[..4].fill(0);
    assert_eq!((bulk_lines(&call)[0], message_lines(&call)[0]), ((0, 0), (0, 0)));
}

#[test]
fn the_sum_is_the_true_one() {
    let stated = |amounts: [u64; 2], sum: u64| -> u16 {
        let messages = [payment("T1", "BBBBLV22XXX", amounts[0]), payment("T2", "BBBBLV22XXX", amounts[1])];
        bulk_lines(&call(&[(header("D1", "AAAALV22", 2, sum), messages.to_vec())]))[0].1
    };
    assert_eq!(stated([u64::MAX, 1], 0), 128);
    assert_eq!(stated([u64::MAX - 1, 1], u64::MAX), 0);
    assert_eq!(stated([3, 4], 7), 0);
}

#[test]
fn identifiers() {
    let good = ["A/B", "A B", "A", "a", "0", "-", "?", ":", "(", ")", ".", ",", "'", "+", "A/ /B"];
    good.iter().for_each(|good| assert_eq!(identifier_faults(good.as_bytes()), 0, "{good}"));
    let bad =
        ["", "/A", "A//B", "A/", " A", "/", "A /", "A\t", "A\0", "A_", "A*", "A&", "A;", "A\"", "A@", "A["];
    bad.iter().for_each(|bad| assert_eq!(identifier_faults(bad.as_bytes()), 1, "{bad}"));
    assert_eq!(identifier_faults(&[b'A'; 35]), 0);
    assert_eq!(identifier_faults(&[&[b'A'; 34][..], b"/"].concat()), 1);
    assert_eq!(identifier_faults(&[&[b'A'; 33][..], b"//"].concat()), 1);
    assert_eq!(identifier_faults(b"A\xC4"), 1);
}

#[test]
fn receivers() {
    let table = ["AAAALV22XXX", "0000LV22XXX", "AAAA1V22XXX", "AAAAL122XXX", "aAAALV22XXX", "AAAALV2-XXX"];
    let faults = |receiver| {
        let mut call = one_bulk(&[payment("T1", receiver, 5)]);
        call.table = section(&table.map(|bic| row(bic, 5)));
        call.positions = vec![0; 8 * table.len()];
        message_lines(&call)[0].1
    };
    assert_eq!(["AAAALV22XXX", "0000LV22XXX", "AAAALV22Z9A"].map(faults), [0, 0, 0]);
    assert_eq!(["AAAA1V22XXX", "AAAAL122XXX", "aAAALV22XXX", "AAAALV2-XXX"].map(faults), [4, 4, 4, 4]);
    assert_eq!(["BBBBLV22XXX", "AAAALV22", "AAAALV22XXx"].map(faults), [8, 4, 4]);
}

#[test]
fn amounts() {
    let faults = |amount| message_faults(payment("T1", "BBBBLV22XXX", amount));
    assert_eq!([0, 1, 99_999_999_999, 100_000_000_000, u64::MAX].map(faults), [16, 0, 0, 16, 16]);
}

#[test]
fn payments_name_no_original() {
    let faults =
        |original, reason, name| message_faults(returned("T1", "BBBBLV22XXX", 5, original, reason, name));
    assert_eq!(faults(0, "", ""), 0);
    assert_eq!(faults(5, "", ""), 32);
    assert_eq!(faults(0, "AC01", ""), 32);
    assert_eq!(faults(0, "", "pacs.008.001.08"), 32);
    assert_eq!(faults(0, "   X", "              X"), 32);
}

#[test]
fn returns_name_their_original() {
    let faults = |amount, reason, name| return_faults(returned("R1", "BBBBLV22XXX", amount, 5, reason, name));
    let reasons = "AC01 AC04 AC06 AG01 AG02 AM05 BE04 CNOR FOCR MD07 MS02 MS03 RC01 RR01 RR02 RR03 RR04";
    assert_eq!(reasons.split(' ').count(), 17);
    for reason in reasons.split(' ') {
        assert_eq!(faults(5, reason, "pacs.008.001.08"), 0, "{reason}");
        assert_eq!(faults(5, reason, "pacs.008.001.02"), 0, "{reason}");
    }
    for reason in ["", "AC02", "AC05", "ac01", "RR05", "MS01", "AC0", "TECH"] {
        assert_eq!(faults(5, reason, "pacs.008.001.08"), 64, "{reason}");
    }
    for name in ["", "pacs.008", "pacs.008.001.09", "pacs.004.001.09", "PACS.008.001.08"] {
        assert_eq!(faults(5, "AC01", name), 128, "{name}");
    }
    assert_eq!(faults(4, "AC01", "pacs.008.001.08"), 256);
    assert_eq!(faults(6, "AC01", "pacs.008.001.08"), 256);
}

#[test]
fn only_a_cancelled_payment_comes_back_with_a_charge_taken_off() {
    let faults = |amount, original, reason| {
        return_faults(returned("R1", "BBBBLV22XXX", amount, original, reason, "pacs.008.001.08"))
    };
    assert_eq!([5, 4, 1, 6, 0].map(|amount| faults(amount, 5, "FOCR")), [0, 0, 0, 256, 16]);
    assert_eq!([5, 4, 1, 6, 0].map(|amount| faults(amount, 5, "RR04")), [0, 256, 256, 256, 272]);
    assert_eq!(["", "FOCS", "focr", "FOC", " FOC"].map(|reason| faults(4, 5, reason)), [320; 5]);
    assert_eq!(["", "FOCS", "focr", "FOC", " FOC"].map(|reason| faults(5, 5, reason)), [64; 5]);
    assert_eq!(faults(0, 0, "FOCR"), 16);
    assert_eq!(faults(100_000_000_000, 99_999_999_999, "FOCR"), 272);
    assert_eq!([1 << 32, 1 << 63, u64::MAX].map(|original| faults(1, original, "FOCR")), [0; 3]);
    assert_eq!(faults(1 << 32, 1, "FOCR"), 256);
    let payment = returned("T1", "BBBBLV22XXX", 6, 5, "FOCR", "pacs.008.001.08");
    assert_eq!(message_faults(payment), 32);
}

#[test]
fn no_fault_hides_another() {
    let with_register = |message: Vec<u8>, kind: u8| {
        let mut call = one_bulk(&[message]);
        call.sheet[4 + KIND] = kind;
        call.register = register(&[entry("AAAALV22", "/T", 1)], 3);
        message_lines(&call)[0]
    };
    assert_eq!(with_register(returned("/T", "bbbbLV22XXX", 0, 1, "", ""), 1), (1, 63));
    assert_eq!(with_register(returned("/T", "bbbbLV22XXX", 0, 1, "ABCD", "pacs"), 3), (1, 479));
}

#[test]
fn equal_identifiers_in_a_fallen_bulk_are_no_repeat() {
    let mut call = one_bulk(&[payment("T1", "BBBBLV22XXX", 5), payment("T1", "BBBBLV22XXX", 5)]);
    assert_eq!(message_lines(&call), [(0, 0), (1, 2)]);
    call.sheet[4 + MARKS] = 2;
    assert_eq!(message_lines(&call), [(2, 0), (2, 0)]);
}

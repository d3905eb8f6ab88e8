//! The routing lookup on its own.

mod support;

use compare::call::Route;
use compare::reference::lookup;
use support::*;

fn found(row: u32, reachable: u32) -> Route {
    Route { number: 0, found: 1, row, reachable }
}

const NONE: Route = Route { number: 0, found: 0, row: 0, reachable: 0 };

#[test]
fn own_row_then_head_office() {
    let table = section(&[
        row("AAAALV22XXX", 5),
        row("AAAALV22KUL", 0),
        row("AAAALV22RIX", 6),
        row("BBBBLV22RIX", 20),
    ]);
    let route = |bic: &str| lookup(DATE, &table, bic.as_bytes());
    assert_eq!(route("AAAALV22XXX"), found(0, 1));
    assert_eq!(route("AAAALV22RIX"), found(2, 1));
    assert_eq!(route("AAAALV22ABC"), found(0, 1));
    assert_eq!(route("AAAALV22KUL"), found(1, 0));
    assert_eq!(route("BBBBLV22RIX"), found(3, 1));
    assert_eq!(route("BBBBLV22XXX"), NONE);
    assert_eq!(route("BBBBLV22ABC"), NONE);
}

#[test]
fn only_counting_rows_count() {
    let on =
        |first, last| lookup(DATE, &section(&[row_between("AAAALV22XXX", first, last, 5)]), b"AAAALV22XXX");
    assert_eq!(on(DATE, DATE), found(0, 1));
    assert_eq!(on(DATE + 1, 20991231), NONE);
    assert_eq!(on(20260101, DATE - 1), NONE);
    assert_eq!(on(0, u32::MAX), found(0, 1));
    assert_eq!(on(DATE + 1, DATE - 1), NONE);
}

#[test]
fn a_row_that_does_not_count_lets_the_next_be_found() {
    let past = |bic, kind| row_between(bic, 20260101, DATE - 1, kind);
    let table = section(&[
        past("AAAALV22KUL", 0),
        past("AAAALV22XXX", 0),
        row("AAAALV22XXX", 6),
        row("AAAALV22XXX", 0),
    ]);
    assert_eq!(lookup(DATE, &table, b"AAAALV22KUL"), found(2, 1));
}

#[test]
fn refusals_in_their_order() {
    let refused = |number| Route { number, found: 0, row: 0, reachable: 0 };
    let table = section(&[row("AAAALV22XXX", 5)]);
    assert_eq!(lookup(20260631, &table[..3], b"AAAA"), refused(1));
    assert_eq!(lookup(DATE, &table[..3], b"AAAA"), refused(2));
    assert_eq!(lookup(DATE, &table, b"AAAALV22"), refused(18));
    assert_eq!(lookup(DATE, &table, b"AAAALV22XXXX"), refused(18));
    assert_eq!(lookup(DATE, &table, b""), refused(18));
    assert_eq!(lookup(DATE, &table, b"AAAALV22XXX"), found(0, 1));
}

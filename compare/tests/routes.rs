//! The tables that are the same in every run: that they are what their names say, and that each is judged.

mod support;

use compare::call::{read_positions, Call};
use compare::generate::routes::ROUTES;
use compare::records::{read_section, BulkLine, Record, Row};
use support::judge;

fn named(name: &str) -> Call {
    let (_, call) = ROUTES.iter().find(|(other, _)| *other == name).expect("there is such a case");
    call()
}

/// All rows but the sender's, which is the last.
fn rows(call: &Call) -> Vec<Row> {
    let mut rows: Vec<Row> = read_section(&mut &call.table[..]).unwrap();
    rows.pop();
    rows
}

/// The number itself, which 128 bits hold, and only then its remainder.
fn start(row: &Row) -> u128 {
    row.bic.iter().fold(0u128, |number, byte| number * 257 + u128::from(*byte)) % 14_983
}

fn starts(name: &str) -> Vec<u128> {
    rows(&named(name)).iter().map(start).collect()
}

#[test]
fn rows_start_where_their_names_say() {
    assert!(starts("rows at the last slot").iter().all(|slot| *slot == 14_982));
    assert!(starts("rows at the last slot but one").iter().all(|slot| *slot == 14_981));
    assert!(starts("rows at the first slot").iter().all(|slot| *slot == 0));
    assert!(starts("8,192 rows at one slot").iter().all(|slot| *slot == 14_982));
    assert!(starts("rows at two slots").chunks(2).all(|pair| *pair == [7_000, 7_001]));
    assert!(starts("rows at the last slot and the first").chunks(2).all(|pair| *pair == [14_982, 0]));
}

/// Some receiver is reached and some is not.
#[test]
fn every_table_tells_rows_apart() {
    for (name, call) in &ROUTES[1..] {
        let mut call = call();
        assert_eq!(judge(&mut call).number, 0, "{name}");
        let lines = call.report[4..].chunks(BulkLine::WIDTH).map(BulkLine::read);
        let bulks = u32::from_be_bytes(call.sheet[..4].try_into().unwrap()) as usize;
        let lines: Vec<BulkLine> = lines.take(bulks).collect();
        assert!(lines.iter().all(|line| line.faults == 0 && line.accepted > 0), "{name}");
        assert!(name.starts_with("senders") || lines[0].rejected > 0, "{name}");
    }
}

#[test]
fn each_of_8192_rows_is_found_by_its_own_message() {
    let mut call = named("8,192 different rows");
    let rows = rows(&call);
    let different: std::collections::HashSet<_> = rows.iter().map(|row| row.bic).collect();
    assert_eq!((rows.len(), different.len()), (8_191, 8_191));
    judge(&mut call);
    let positions = read_positions(&call.positions);
    for (row, position) in rows.iter().zip(&positions) {
        assert_eq!(row.kind == 0, *position == 0);
    }
    assert!(positions[8_191] < 0);
}

//! The routing table: which row a BIC goes by on a date, and whether it can be reached.

use super::calendar::is_date;
use crate::call::Route;
use crate::records::{read_section, Bic, Row, Sender};

const MOST_ROWS: usize = 8_192;
const NOT_REACHABLE: u8 = 0;
const PARTICIPANT: u8 = 5;
const KINDS: [u8; 4] = [NOT_REACHABLE, PARTICIPANT, 6, 20];
const HEAD_OFFICE: &[u8] = b"XXX";

/// The rows of a table that stands; none is refusal 2.
pub fn rows(mut table: &[u8]) -> Option<Vec<Row>> {
    let rows = read_section::<Row>(&mut table)?;
    let stands =
        table.is_empty() && rows.len() <= MOST_ROWS && rows.iter().all(|row| KINDS.contains(&row.kind));
    stands.then_some(rows)
}

fn first_counting(rows: &[Row], date: u32, bic: &Bic) -> Option<usize> {
    rows.iter().position(|row| row.first <= date && date <= row.last && row.bic == *bic)
}

fn head_office(eight: &[u8]) -> Bic {
    [eight, HEAD_OFFICE].concat().try_into().expect("eight and three are eleven")
}

/// The row a receiver goes by. A BIC with a counting row of its own never goes by its head office's.
pub fn row_of(rows: &[Row], date: u32, bic: &Bic) -> Option<usize> {
    let own = first_counting(rows, date, bic);
    if own.is_some() || &bic[8..] == HEAD_OFFICE {
        return own;
    }
    first_counting(rows, date, &head_office(&bic[..8]))
}

/// The row a sender settles on; none where its first counting row is no participant's.
pub fn participant_row(rows: &[Row], date: u32, sender: &Sender) -> Option<usize> {
    first_counting(rows, date, &head_office(sender)).filter(|row| rows[*row].kind == PARTICIPANT)
}

pub fn reachable(rows: &[Row], row: Option<usize>) -> bool {
    row.is_some_and(|row| rows[row].kind != NOT_REACHABLE)
}

/// The lookup asked on its own.
pub fn lookup(date: u32, table: &[u8], bic: &[u8]) -> Route {
    let refused = |number| Route { number, found: 0, row: 0, reachable: 0 };
    if !is_date(date) {
        return refused(1);
    }
    let Some(rows) = rows(table) else {
        return refused(2);
    };
    let Ok(bic) = Bic::try_from(bic) else {
        return refused(18);
    };
    let row = row_of(&rows, date, &bic);
    Route {
        number: 0,
        found: row.is_some().into(),
        row: row.unwrap_or(0) as u32,
        reachable: reachable(&rows, row).into(),
    }
}

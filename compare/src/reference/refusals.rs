//! Which calls are refused: the conditions, in the order of the numbers.

use super::calendar::is_date;
use super::index::Index;
use super::routing;
use super::rules::{MOST_CENTS, PAYMENTS, RETURNS};
use crate::call::{read_positions, report_length};
use crate::records::{number, read_bulks, Bulk, Entry, Record, Row, COUNT, POSITION};

const MOST_ENTRIES: usize = 60_000;
const MOST_BULKS: usize = 999;
const MOST_MESSAGES: usize = 15_000;
const MOST_POSITION: u128 = 1_000_000_000_000_000_000;

/// The lent parts, before anything is written.
pub struct Lent<'a> {
    pub date: u32,
    pub sheet: &'a [u8],
    pub table: &'a [u8],
    pub register: &'a [u8],
    pub positions: &'a [u8],
    pub report: &'a [u8],
    /// What the plain judge is not lent.
    pub index: Option<&'a [u8]>,
}

/// A file that no refusal meets, taken apart.
pub struct File {
    pub rows: Vec<Row>,
    pub used: usize,
    pub bulks: Vec<Bulk>,
    pub positions: Vec<i64>,
    /// The register's, where one is lent.
    pub index: Option<Index>,
}

/// The file, or the first refusal that holds.
pub fn admitted(lent: &Lent) -> Result<File, u32> {
    let need = |holds: bool, refusal: u32| if holds { Ok(()) } else { Err(refusal) };
    need(is_date(lent.date), 1)?;
    let rows = routing::rows(lent.table).ok_or(2u32)?;
    need(lent.positions.len() == POSITION * rows.len(), 3)?;
    let (room, used) = entries(lent.register).ok_or(4u32)?;
    let mut index = None;
    if let Some(given) = lent.index {
        need(given.len() == Index::length(room), 12)?;
        let right = index.insert(Index::of(lent.register, room, used));
        need(given == right.bytes(), 13)?;
    }
    let bulks = whole(lent.sheet).ok_or(5u32)?;
    let messages = bulks.iter().map(|bulk| bulk.messages.len()).sum();
    need(bulks.len() <= MOST_BULKS && messages <= MOST_MESSAGES, 6)?;
    let kinds: Vec<u8> = bulks.iter().map(|bulk| bulk.header.kind).collect();
    need(kinds.iter().all(|kind| [PAYMENTS, RETURNS].contains(kind)), 7)?;
    need(kinds.is_sorted(), 8)?;
    need(room - used >= bulks.len() + messages, 9)?;
    let positions = read_positions(lent.positions);
    let reach = messages as u128 * u128::from(MOST_CENTS);
    need(positions.iter().all(|position| u128::from(position.unsigned_abs()) + reach <= MOST_POSITION), 10)?;
    need(lent.report.len() >= report_length(bulks.len(), messages), 11)?;
    Ok(File { rows, used, bulks, positions, index })
}

/// The register's room and its number used; none where its size or that number is wrong.
pub fn entries(register: &[u8]) -> Option<(usize, usize)> {
    let (used, room) = register.split_at_checked(COUNT)?;
    let whole = room.len() % Entry::WIDTH == 0;
    let (room, used) = (room.len() / Entry::WIDTH, number(used) as usize);
    (whole && room <= MOST_ENTRIES && used <= room).then_some((room, used))
}

fn whole(mut sheet: &[u8]) -> Option<Vec<Bulk>> {
    read_bulks(&mut sheet).filter(|_| sheet.is_empty())
}

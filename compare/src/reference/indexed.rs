//! The judge by the index, and the index built.

use super::index::{End, Index};
use super::judging::{settle, Lines, ACCEPTED, BULK, MESSAGE};
use super::refusals::{admitted, entries, Lent};
use crate::call::IndexedAnswer;
use crate::records::{Bulk, Entry, Identifier, Record, Sender, COUNT};

/// Judges as the plain judge does; the index is left as that of the register left. A refusal writes nothing.
pub fn judge_indexed(
    date: u32,
    sheet: &[u8],
    table: &[u8],
    register: &mut [u8],
    positions: &mut [u8],
    space: &mut [u8],
    index: &mut [u8],
) -> IndexedAnswer {
    let lent = Lent { date, sheet, table, register, positions, report: space, index: Some(index) };
    let mut file = match admitted(&lent) {
        Ok(file) => file,
        Err(number) => return IndexedAnswer { number, length: 0, slots: 0 },
    };
    let (length, lines) = settle(date, &file, register, positions, space);
    let mut kept = file.index.take().expect("an index is lent");
    let slots = searches(&mut kept, &file.bulks, &lines);
    index.copy_from_slice(&kept.bytes());
    IndexedAnswer { number: 0, length, slots }
}

fn entry(sender: Sender, identifier: Identifier, tag: u8) -> Vec<u8> {
    let mut bytes = Vec::with_capacity(Entry::WIDTH);
    Entry { sender, identifier, tag }.write(&mut bytes);
    bytes
}

/// The slots read in all searches of a judgement, in their order; what was accepted is put into the index.
fn searches(index: &mut Index, bulks: &[Bulk], lines: &Lines) -> u64 {
    let mut slots = 0;
    for (Bulk { header, messages }, (line, message_lines)) in bulks.iter().zip(lines) {
        let own = entry(header.sender, header.identifier, BULK);
        let End { found, read, .. } = index.search(&own);
        assert_eq!(found, line.faults >> 4 & 1 == 1, "bulk bit 4 is what the search finds");
        slots += read;
        for (message, line) in messages.iter().zip(message_lines) {
            let entry = entry(header.sender, message.identifier, MESSAGE);
            let End { place, found, read } = index.search(&entry);
            assert_eq!(found, line.faults >> 1 & 1 == 1, "message bit 1 is what the search finds");
            slots += read;
            if line.outcome == ACCEPTED {
                index.put(place, &entry);
            }
        }
        // the messages' entries came in between, so the bulk's own is searched again
        if line.accepted > 0 {
            let End { place, read, .. } = index.search(&own);
            slots += read;
            index.put(place, &own);
        }
    }
    slots
}

/// The index of a register; where that is not well formed, as many bytes of 0 as its length suggests.
pub fn right_index(register: &[u8]) -> Vec<u8> {
    let mut index = vec![0; Index::length(register.len().saturating_sub(COUNT) / Entry::WIDTH)];
    build_index(register, &mut index);
    index
}

/// Fills the index from the register; a refusal leaves every byte.
pub fn build_index(register: &[u8], index: &mut [u8]) -> u32 {
    let Some((room, used)) = entries(register) else {
        return 4;
    };
    if index.len() != Index::length(room) {
        return 12;
    }
    index.copy_from_slice(&Index::of(register, room, used).bytes());
    0
}

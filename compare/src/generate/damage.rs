//! Damage aimed at one refusal: half of it meets the refusal, the rest stands right beside it.

use super::Maker;
use crate::call::{read_positions, report_length, write_positions, Call};
use crate::records::{number, read_bulks, Bulk, Entry, Header, Record, Row, COUNT};

/// The limits in the rules, of positions and of one amount.
const MOST_POSITION: i64 = 1_000_000_000_000_000_000;
const MOST_CENTS: i64 = 99_999_999_999;

impl Maker<'_> {
    /// Damages one part of the call.
    pub fn damage(&mut self, call: &mut Call) {
        match self.random.below(14) {
            0 => call.date = Maker::near_date(self.random),
            1 => self.damage_table(&mut call.table),
            2 => self.resize(&mut call.positions, 8),
            3 => {
                self.damage_register(&mut call.register);
                self.follow(call);
            }
            4 => self.damage_sheet(&mut call.sheet),
            5 => self.damage_kinds(&mut call.sheet, &[1, 3, 1, 3, 0, 2, 4, 129, 255]),
            6 => self.damage_kinds(&mut call.sheet, &[1, 3]),
            7 => {
                self.fill_register(call);
                self.follow(call);
            }
            8 | 9 => self.stretch_positions(call),
            10 => self.resize_report(call),
            _ => self.damage_index(call),
        }
    }

    /// Some bytes more or fewer, often exactly one or one record.
    pub fn resize(&mut self, part: &mut Vec<u8>, record: usize) {
        let some = 1 + self.random.below(record);
        let steps = self.random.pick(&[1, record, some]);
        if self.random.one_in(2) {
            part.extend(self.random.bytes(steps));
        } else {
            part.truncate(part.len().saturating_sub(steps));
        }
    }

    /// Writes another count at the place; the large ones look small where arithmetic has 32 bits.
    fn recount(&mut self, part: &mut [u8], at: usize) {
        let Some(place) = part.get_mut(at..at + COUNT) else {
            return;
        };
        let count = number(place) as u32;
        let some = self.random.draw() as u32;
        let other = self.random.pick(&[
            count.wrapping_add(1),
            count.wrapping_sub(1),
            count.wrapping_add(1 << 30),
            count.wrapping_add(1 << 31),
            0,
            u32::MAX,
            some,
        ]);
        place.copy_from_slice(&other.to_be_bytes());
    }

    fn damage_table(&mut self, table: &mut Vec<u8>) {
        match self.random.below(4) {
            0 => self.resize(table, Row::WIDTH),
            1 => self.recount(table, 0),
            2 => table.truncate(self.random.below(COUNT + 1)),
            _ => {
                let rows = (table.len().max(COUNT) - COUNT) / Row::WIDTH;
                if rows > 0 {
                    let row = self.random.below(rows);
                    let kind = self.random.pick(&[1, 4, 7, 16, 19, 21, 128, 133, 255, 20]);
                    table[COUNT + row * Row::WIDTH + 19] = kind;
                }
            }
        }
    }

    fn damage_register(&mut self, register: &mut Vec<u8>) {
        match self.random.below(4) {
            0 => self.resize(register, Entry::WIDTH),
            1 => self.recount(register, 0),
            2 => register.truncate(self.random.below(COUNT + 1)),
            _ if register.len() >= COUNT => {
                let room = (register.len() - COUNT) / Entry::WIDTH;
                let used = room as u32 + self.random.pick(&[0, 1]);
                register[..COUNT].copy_from_slice(&used.to_be_bytes());
            }
            _ => (),
        }
    }

    fn damage_sheet(&mut self, sheet: &mut Vec<u8>) {
        match self.random.below(5) {
            0 => self.resize(sheet, 81),
            1 => self.recount(sheet, 0),
            2 => {
                let bulks = sheet.get(..COUNT).map_or(0, |count| number(count) as usize).min(1000);
                self.recount(sheet, COUNT + bulks * Header::WIDTH);
            }
            3 => {
                let last = sheet.len().saturating_sub(COUNT);
                self.recount(sheet, last);
            }
            _ => sheet.truncate(self.random.below(sheet.len() + 1)),
        }
    }

    /// Another kind in one header or in all.
    fn damage_kinds(&mut self, sheet: &mut [u8], kinds: &[u8]) {
        let bulks = sheet.get(..COUNT).map_or(0, |count| number(count) as usize).min(1000);
        let one = self.random.below(bulks.max(1));
        let all = self.random.one_in(2);
        for bulk in (0..bulks).filter(|bulk| all || *bulk == one) {
            let kind = self.random.pick(kinds);
            if let Some(place) = sheet.get_mut(COUNT + bulk * Header::WIDTH) {
                *place = kind;
            }
        }
    }

    /// Leaves exactly as many free entries as are needed, or one fewer.
    fn fill_register(&mut self, call: &mut Call) {
        let Some((bulks, messages)) = size(&call.sheet) else {
            return;
        };
        if call.register.len() < COUNT {
            return;
        }
        let free = (bulks + messages).saturating_sub(self.random.pick(&[0, 1]));
        let used = (number(&call.register[..COUNT]) as usize).min(100);
        call.register.resize(COUNT + (used + free) * Entry::WIDTH, 7);
    }

    /// Puts a position at the edge of what the file may move, or past any edge.
    fn stretch_positions(&mut self, call: &mut Call) {
        let messages = size(&call.sheet).map_or(0, |(_, messages)| messages.min(15_000)) as i64;
        let mut positions = read_positions(&call.positions);
        if positions.is_empty() {
            return;
        }
        let edge = MOST_POSITION - messages * MOST_CENTS;
        let row = self.random.below(positions.len());
        let magnitude =
            self.random.pick(&[edge, edge + 1, edge - 1, edge, edge + 1, MOST_POSITION, i64::MAX]);
        let signed = self.random.pick(&[magnitude, -magnitude]);
        positions[row] = if self.random.one_in(8) { i64::MIN } else { signed };
        let bytes = write_positions(&positions);
        call.positions[..bytes.len()].copy_from_slice(&bytes);
    }

    fn resize_report(&mut self, call: &mut Call) {
        let Some((bulks, messages)) = size(&call.sheet) else {
            return;
        };
        let needed = report_length(bulks, messages);
        let length = self.random.pick(&[needed, needed - 1, needed - 1, needed + 1, 0]);
        call.report = self.random.bytes(length);
    }
}

/// The number of bulks and of messages, where the sheet can be read.
fn size(mut sheet: &[u8]) -> Option<(usize, usize)> {
    let bulks: Vec<Bulk> = read_bulks(&mut sheet)?;
    Some((bulks.len(), bulks.iter().map(|bulk| bulk.messages.len()).sum()))
}

//! Indexes: mostly the register's own, else damaged; and entries that crowd around one slot.

use std::collections::HashMap;

use super::Maker;
use crate::call::Call;
use crate::records::{number, read_section, Bulk, Entry, Identifier, Record, Sender, COUNT};
use crate::reference::{right_index, start};

const SLOT: usize = 4;
/// The tags that the judge looks for.
const MESSAGE: u8 = 1;
const BULK: u8 = 2;
/// Characters that an identifier may end with; two of them reach any slot of a small index.
const ENDS: &[u8] = b"0123456789ABCDEFGHIJKLMNOPQRSTUVWXYZabcdefghijklmnopqrstuvwxyz";

/// What the last two characters of an identifier are worth in an entry, of which the tag is the lowest digit.
const WORTH: [usize; 2] = [257 * 257, 257];

/// The identifier with an end that makes its entry start at the slot, if there is one.
pub fn ending_at(slot: usize, slots: usize, entry: &Entry) -> Option<Identifier> {
    let mut identifier = entry.identifier;
    identifier[33..].fill(0);
    let mut bytes = Vec::new();
    Entry { identifier, ..entry.clone() }.write(&mut bytes);
    let front = start(&bytes, slots);
    let fits = |ends: &[u8; 2]| {
        let worth: usize = ends.iter().zip(WORTH).map(|(end, worth)| usize::from(*end) * worth).sum();
        (front + worth) % slots == slot
    };
    let mut ends = ENDS.iter().flat_map(|first| ENDS.iter().map(|second| [*first, *second]));
    identifier[33..].copy_from_slice(&ends.find(fits)?);
    Some(identifier)
}

/// The first slot from one on, round the end, whose name is so.
fn round(names: &[u32], from: usize, so: impl Fn(u32) -> bool) -> Option<usize> {
    (from..names.len()).chain(0..from).find(|slot| so(names[*slot]))
}

impl Maker<'_> {
    /// Moves most entries of a register and of a sheet to one slot, often the last, so that searches read many slots and go
    /// on round the end.
    pub fn crowd(&mut self, register: &mut [u8], bulks: &mut [Bulk]) {
        let slots = 2 * (register.len() - COUNT) / Entry::WIDTH;
        if slots == 0 {
            return;
        }
        let any = self.random.below(slots);
        let slot = self.random.pick(&[slots - 1, slots - 1, slots - 2, 0, any]);
        let mut moved = |sender: Sender, identifier: Identifier, tag: u8| {
            let stays = self.random.one_in(4);
            let end = ending_at(slot, slots, &Entry { sender, identifier, tag });
            end.filter(|_| !stays).unwrap_or(identifier)
        };
        for bytes in register[COUNT..].chunks_exact_mut(Entry::WIDTH) {
            let Entry { sender, identifier, tag } = Entry::read(bytes);
            bytes[8..43].copy_from_slice(&moved(sender, identifier, tag));
        }
        for Bulk { header, messages } in bulks {
            header.identifier = moved(header.sender, header.identifier, BULK);
            let sender = header.sender;
            messages.iter_mut().for_each(|one| one.identifier = moved(sender, one.identifier, MESSAGE));
        }
    }

    /// The index after the register was changed: that of the register, or now and then the old one.
    pub fn follow(&mut self, call: &mut Call) {
        if !self.random.one_in(4) {
            call.index = right_index(&call.register);
        }
    }

    /// An index that is not the register's, or just is.
    pub fn damage_index(&mut self, call: &mut Call) {
        match self.random.below(8) {
            0 => self.resize(&mut call.index, 2 * SLOT),
            1 => call.index.truncate(self.random.below(2)),
            2 => call.index.fill(0),
            3 => call.index = self.of_another(&call.register),
            _ if call.index.len() < SLOT => (),
            // every name one slot on, or one byte
            4 => call.index.rotate_right(self.random.pick(&[1, SLOT])),
            _ => self.damage_slots(call),
        }
    }

    /// The index of a register with fewer entries in use or more, with two of them in each other's place, or with one changed.
    fn of_another(&mut self, register: &[u8]) -> Vec<u8> {
        let mut other = register.to_vec();
        let used = other.get(..COUNT).map_or(0, |count| number(count) as usize);
        let room = other.len().saturating_sub(COUNT) / Entry::WIDTH;
        if used == 0 || used > room {
            return right_index(register);
        }
        let place = |entry: usize| COUNT + Entry::WIDTH * entry;
        let (first, second) = (self.random.below(used), self.random.below(used));
        let (byte, added) = (self.random.below(Entry::WIDTH), self.random.byte());
        match self.random.below(4) {
            0 => other[..COUNT].copy_from_slice(&(used as u32 - 1).to_be_bytes()),
            1 => other[..COUNT].copy_from_slice(&(used as u32 + 1).to_be_bytes()),
            2 => (0..Entry::WIDTH).for_each(|byte| other.swap(place(first) + byte, place(second) + byte)),
            _ => other[place(first) + byte] ^= added,
        }
        right_index(&other)
    }

    /// Other names in slots: of entries in use and not in use, twice, in each other's place, of none.
    fn damage_slots(&mut self, Call { register, index, .. }: &mut Call) {
        let mut names: Vec<u32> = index.chunks_exact(SLOT).map(|slot| number(slot) as u32).collect();
        let slots = names.len();
        let used = register.get(..COUNT).map_or(0, |count| number(count) as usize).min(slots);
        let any = self.random.below(slots);
        // half of the time a slot that is taken, where there is one
        let taken = round(&names, any, |name| name != 0).unwrap_or(any);
        let slot = self.random.pick(&[any, taken]);
        let empty = round(&names, slot, |name| name == 0).unwrap_or(slot);
        let (old, next) = (names[slot], (slot + 1) % slots);
        let other = 1 + self.random.below(used + 1) as u32;
        match self.random.below(9) {
            0 => names[slot] = 0,
            1 => names[slot] = other,
            2 => {
                let (used, room) = (used as u32, slots as u32 / 2);
                names[empty] = self.random.pick(&[used + 1, used + 2, room, room + 1, u32::MAX, 1 << 31]);
            }
            3 => {
                let near = [old.wrapping_add(1), old.wrapping_sub(1), old ^ 1 << 8, old ^ 1 << 24];
                names[slot] = self.random.pick(&near);
            }
            4 => names.swap(slot, self.random.pick(&[next, taken, empty])),
            // the same entry once more, behind the others
            5 => names[empty] = names[taken],
            6 => self.name_repeats(register, &mut names),
            7 => names.iter_mut().filter(|name| **name == 0).for_each(|name| *name = other),
            _ => names.iter_mut().for_each(|name| *name = name.swap_bytes()),
        }
        let bytes: Vec<u8> = names.iter().flat_map(|name| name.to_be_bytes()).collect();
        index[..bytes.len()].copy_from_slice(&bytes);
    }

    /// Names the second of two equal entries too, or in the first one's place.
    fn name_repeats(&mut self, register: &[u8], names: &mut [u32]) {
        let mut section = register;
        let entries: Vec<Entry> = read_section(&mut section).unwrap_or_default();
        let mut firsts = HashMap::new();
        let repeats = entries.iter().enumerate().filter_map(|(place, entry)| {
            let first = *firsts.entry(entry).or_insert(place);
            (first < place).then_some((first, place))
        });
        let Some((first, second)) = repeats.last() else {
            return;
        };
        let Some(named) = names.iter().position(|name| *name == first as u32 + 1) else {
            return;
        };
        let empty = round(names, named, |name| name == 0).unwrap_or(named);
        names[self.random.pick(&[named, empty])] = second as u32 + 1;
    }
}

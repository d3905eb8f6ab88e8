//! The index of a register: slots that name its entries.

use crate::records::{Entry, Record, COUNT};

/// Slots for each entry that the register has room for, and the bytes of one.
const SLOTS: usize = 2;
const SLOT: usize = 4;
/// Base in which an entry's bytes are the digits of a number.
const BASE: usize = 257;

type Bytes = [u8; Entry::WIDTH];

/// Entries in the register's order, and slots: each empty, or the place of an entry counted from 1.
pub struct Index {
    entries: Vec<Bytes>,
    slots: Vec<u32>,
    worths: Worths,
}

/// What a byte is worth at each place of an entry: a power of the base, modulo the number of slots.
type Worths = [usize; Entry::WIDTH];

/// Where a search ended, whether at an equal entry, and how many slots it read.
pub struct End {
    pub place: usize,
    pub found: bool,
    pub read: u64,
}

/// The last byte is the lowest digit, and worth 1.
fn worths(slots: usize) -> Worths {
    let mut worths = [1; Entry::WIDTH];
    for place in (1..Entry::WIDTH).rev() {
        worths[place - 1] = worths[place] * BASE % slots;
    }
    worths
}

fn sum(entry: &[u8], worths: &Worths) -> usize {
    entry.iter().zip(worths).map(|(byte, worth)| usize::from(*byte) * worth).sum()
}

/// The slot that an entry's bytes give: the number they are, modulo the number of slots, of which there is one at least.
pub fn start(entry: &[u8], slots: usize) -> usize {
    sum(entry, &worths(slots)) % slots
}

impl Index {
    /// The bytes that an index takes.
    pub fn length(room: usize) -> usize {
        SLOTS * room * SLOT
    }

    /// The entries in use added in order to empty slots.
    pub fn of(register: &[u8], room: usize, used: usize) -> Index {
        let slots = SLOTS * room;
        let worths = worths(slots.max(1));
        let mut index = Index { entries: Vec::with_capacity(room), slots: vec![0; slots], worths };
        register[COUNT..].chunks_exact(Entry::WIDTH).take(used).for_each(|entry| index.add(entry));
        index
    }

    /// Forward from the entry's own slot, round the end, to one that names an equal entry or to an empty one.
    pub fn search(&self, entry: &[u8]) -> End {
        let slots = self.slots.len();
        let first = sum(entry, &self.worths) % slots.max(1);
        let ways = (first..slots).chain(0..first).map(|place| (place, self.slots[place]));
        for (passed, (place, name)) in ways.enumerate() {
            let found = name != 0 && self.entries[name as usize - 1] == entry;
            if found || name == 0 {
                return End { place, found, read: passed as u64 + 1 };
            }
        }
        assert_eq!(slots, 0, "twice as many slots as entries cannot all be taken");
        End { place: 0, found: false, read: 0 }
    }

    /// The register's next entry, named at the empty slot where its search ended.
    pub fn put(&mut self, place: usize, entry: &[u8]) {
        assert_eq!(self.slots[place], 0, "what a slot names is never replaced");
        self.entries.push(entry.try_into().expect("an entry's width"));
        self.slots[place] = self.entries.len() as u32;
    }

    /// The register's next entry. An equal one that stands before it is found, and no slot names it again.
    fn add(&mut self, entry: &[u8]) {
        let End { place, found, .. } = self.search(entry);
        match found {
            true => self.entries.push(entry.try_into().expect("an entry's width")),
            false => self.put(place, entry),
        }
    }

    pub fn bytes(&self) -> Vec<u8> {
        self.slots.iter().flat_map(|name| name.to_be_bytes()).collect()
    }
}

//! Cases for the comparer: good ones, spoilt ones, and ones made to meet a certain refusal or just miss it.

mod damage;
pub mod days;
mod fields;
mod index;
pub mod limits;
mod parts;
pub mod routes;
mod rows;
pub mod sweeps;

use crate::call::{write_positions, Call};
use crate::cut::{File, Run};
use crate::program::Input;
use crate::random::Random;
use crate::records::{write_bulks, write_section, Bic, Record, Row, COUNT};
use crate::reference::right_index;

/// Makes the parts of one case.
pub struct Maker<'a> {
    random: &'a mut Random,
    date: u32,
    /// One field in so many is spoilt.
    odds: usize,
    /// Identifiers made that stand nowhere else in the case.
    made: usize,
    /// BICs around one slot, of which most rows, receivers and senders are; mostly there are none.
    crowd: Vec<Bic>,
}

impl Maker<'_> {
    pub fn new(random: &mut Random) -> Maker<'_> {
        let date = Maker::date(random);
        let odds = random.pick(&[4, 12, 40, 200]);
        let crowd = if random.one_in(3) { Maker::crowd_of_bics(random) } else { Vec::new() };
        Maker { random, date, odds, made: 0, crowd }
    }

    fn spoils(&mut self) -> bool {
        self.random.one_in(self.odds)
    }

    fn table(&mut self) -> Vec<u8> {
        let counts = if self.crowd.is_empty() { [0, 1, 2, 3, 4, 6, 9] } else { [0, 1, 3, 6, 9, 16, 30] };
        let count = self.random.pick(&counts);
        let mut table = Vec::new();
        write_section(&self.rows(count), &mut table);
        table
    }

    /// A call that no refusal meets.
    fn good_call(&mut self) -> Call {
        let large = self.random.one_in(60);
        let (most_bulks, most_messages) = if large { (20, 12) } else { (4, 5) };
        let count = self.random.below(most_bulks + 1);
        let mut bulks = self.bulks(count, most_messages);
        let needed = bulks.len() + bulks.iter().map(|bulk| bulk.messages.len()).sum::<usize>();
        let used = self.random.pick(&[0, 0, 1, 3, 8, 20]);
        let free = needed + self.random.pick(&[0, 0, 1, 4]);
        let mut register = self.register(used, free);
        if self.random.one_in(3) {
            self.crowd(&mut register, &mut bulks);
        }
        let table = self.table();
        Call {
            date: self.date,
            sheet: write_bulks(&bulks),
            positions: write_positions(&self.positions(table.len() / 20)),
            table,
            report: self.space(&bulks),
            index: right_index(&register),
            register,
        }
    }
}

/// One call, damaged or not.
pub fn call(random: &mut Random) -> Call {
    let mut maker = Maker::new(random);
    let mut call = maker.good_call();
    for _ in 0..maker.random.pick(&[0, 0, 0, 0, 0, 1, 1, 1, 2, 3]) {
        maker.damage(&mut call);
    }
    call
}

/// The same call with one part damaged.
pub fn damaged(random: &mut Random, call: &Call) -> Call {
    let mut call = call.clone();
    Maker::new(random).damage(&mut call);
    call
}

/// A BIC for the lookup, often one of the table's; now and then of another length.
pub fn lookup_bic(random: &mut Random, table: &[u8]) -> Vec<u8> {
    let rows = table.len().saturating_sub(COUNT) / Row::WIDTH;
    let mut bic = Maker::new(random).bic().to_vec();
    if rows > 0 && random.one_in(2) {
        let row = COUNT + Row::WIDTH * random.below(rows);
        let same = random.pick(&[bic.len(), bic.len(), 8]);
        bic[..same].copy_from_slice(&table[row..row + same]);
    }
    if random.one_in(8) {
        bic.resize(random.pick(&[0, 8, 10, 12, 35]), b'X');
    }
    bic
}

/// Input for the program: a call's parts, now and then in another shape.
pub fn input(random: &mut Random, call: &Call) -> Vec<u8> {
    let mut input = Input::of(call);
    if random.one_in(20) {
        // 16,384 bytes are the most a part may have; whether they make sense is another matter
        let length = random.pick(&[16_383, 16_384, 16_385]);
        match random.below(3) {
            0 => input.table.resize(length, 0),
            1 => input.register.resize(length, 0),
            _ => input.sheet.resize(length, 0),
        }
    }
    let mut bytes = input.bytes();
    match random.below(20) {
        0 => bytes.push(random.byte()),
        1 => bytes.truncate(random.below(bytes.len())),
        2 => {
            bytes.pop();
        }
        3 => bytes[4] = random.byte(),
        _ => (),
    }
    bytes
}

/// Some files one after another over one table, from an empty register; damaged files stand among them.
pub fn run(random: &mut Random) -> Run {
    let mut maker = Maker::new(random);
    let table = maker.table();
    let positions = write_positions(&maker.positions(table.len() / 20));
    let room = maker.random.pick(&[10, 40, 100]);
    let count = 2 + maker.random.below(5);
    let files = (0..count).map(|_| maker.file()).collect();
    Run { table, positions, room, files }
}

impl Maker<'_> {
    /// A file whose identifiers are likely to stand in other files too; now and then of another day.
    fn file(&mut self) -> File {
        self.made = 0;
        if self.random.one_in(4) {
            self.date = Maker::date(self.random);
        }
        let mut call = self.good_call();
        if self.random.one_in(5) {
            self.damage(&mut call);
        }
        File { date: call.date, sheet: call.sheet }
    }
}

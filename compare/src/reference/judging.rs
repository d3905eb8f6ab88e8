//! What a judgement changes: register, positions and report.

use std::collections::HashSet;

use super::refusals::{admitted, File, Lent};
use super::routing;
use super::rules::{bulk_faults, message_faults, Known};
use crate::call::{write_positions, Answer};
use crate::records::{
    write_section, Bulk, BulkLine, Entry, Header, Identifier, Message, MessageLine, Record, Row, Sender,
    COUNT,
};

/// The tags of register entries.
pub const MESSAGE: u8 = 1;
pub const BULK: u8 = 2;

pub const ACCEPTED: u8 = 0;
const PARTIAL: u8 = 1;
const BULK_REJECTED: u8 = 2;
const MESSAGE_REJECTED: u8 = 1;
const FELL: u8 = 2;

/// The lines of a file: each bulk's, with those of its messages.
pub type Lines = Vec<(BulkLine, Vec<MessageLine>)>;

/// The entries in use, and those this call adds in their order.
pub struct Register {
    standing: HashSet<Entry>,
    added: Vec<Entry>,
}

impl Register {
    fn read(used: &[u8]) -> Register {
        Register { standing: used.chunks_exact(Entry::WIDTH).map(Entry::read).collect(), added: Vec::new() }
    }

    pub fn holds(&self, sender: &Sender, identifier: &Identifier, tag: u8) -> bool {
        self.standing.contains(&Entry { sender: *sender, identifier: *identifier, tag })
    }

    fn add(&mut self, sender: &Sender, identifier: &Identifier, tag: u8) {
        let entry = Entry { sender: *sender, identifier: *identifier, tag };
        self.standing.insert(entry.clone());
        self.added.push(entry);
    }
}

/// Everything a bulk is judged by and may change.
struct State<'a> {
    date: u32,
    rows: &'a [Row],
    register: Register,
    positions: Vec<i128>,
}

impl State<'_> {
    fn known(&self) -> Known<'_> {
        Known { date: self.date, rows: self.rows, register: &self.register }
    }

    fn bulk(&mut self, bulk: &Bulk) -> (BulkLine, Vec<MessageLine>) {
        let faults = bulk_faults(&self.known(), bulk);
        let lines: Vec<MessageLine> =
            bulk.messages.iter().map(|message| self.message(&bulk.header, faults != 0, message)).collect();
        let line = bulk_line(bulk, faults, &lines);
        if line.accepted > 0 {
            self.register.add(&bulk.header.sender, &bulk.header.identifier, BULK);
        }
        (line, lines)
    }

    fn message(&mut self, header: &Header, falls: bool, message: &Message) -> MessageLine {
        let faults = message_faults(&self.known(), header, message);
        let outcome = match (falls, faults) {
            (true, _) => FELL,
            (false, 0) => ACCEPTED,
            (false, _) => MESSAGE_REJECTED,
        };
        if outcome == ACCEPTED {
            self.register.add(&header.sender, &message.identifier, MESSAGE);
            self.pay(header, message);
        }
        MessageLine { identifier: message.identifier, outcome, faults }
    }

    fn pay(&mut self, header: &Header, message: &Message) {
        let from = routing::participant_row(self.rows, self.date, &header.sender);
        let to = routing::row_of(self.rows, self.date, &message.receiver);
        self.positions[from.expect("bulk bit 1 is not set")] -= i128::from(message.amount);
        self.positions[to.expect("message bit 3 is not set")] += i128::from(message.amount);
    }
}

fn bulk_line(bulk: &Bulk, faults: u16, lines: &[MessageLine]) -> BulkLine {
    let cents = |accepted: bool| {
        let pairs = bulk.messages.iter().zip(lines);
        pairs
            .filter(|pair| (pair.1.outcome == ACCEPTED) == accepted)
            .map(|pair| u128::from(pair.0.amount))
            .sum::<u128>()
    };
    let accepted = lines.iter().filter(|line| line.outcome == ACCEPTED).count();
    let outcome = match accepted {
        0 => BULK_REJECTED,
        all if all == lines.len() => ACCEPTED,
        _ => PARTIAL,
    };
    BulkLine {
        identifier: bulk.header.identifier,
        outcome,
        faults,
        accepted: accepted as u32,
        accepted_cents: cents(true) as u64,
        rejected: (lines.len() - accepted) as u32,
        rejected_cents: cents(false),
    }
}

fn report(judged: &Lines) -> Vec<u8> {
    let mut report = (judged.len() as u32).to_be_bytes().to_vec();
    judged.iter().for_each(|(line, _)| line.write(&mut report));
    judged.iter().for_each(|(_, lines)| write_section(lines, &mut report));
    report
}

/// Judges one sheet. A refusal writes nothing.
pub fn judge(
    date: u32,
    sheet: &[u8],
    table: &[u8],
    register: &mut [u8],
    positions: &mut [u8],
    space: &mut [u8],
) -> Answer {
    let lent = Lent { date, sheet, table, register, positions, report: space, index: None };
    match admitted(&lent) {
        Err(number) => Answer { number, length: 0 },
        Ok(file) => Answer { number: 0, length: settle(date, &file, register, positions, space).0 },
    }
}

/// Judges a file that no refusal meets and writes what comes of it; the report's length, and the lines.
pub fn settle(
    date: u32,
    file: &File,
    register: &mut [u8],
    positions: &mut [u8],
    space: &mut [u8],
) -> (u64, Lines) {
    let unused = COUNT + file.used * Entry::WIDTH;
    let mut state = State {
        date,
        rows: &file.rows,
        register: Register::read(&register[COUNT..unused]),
        positions: file.positions.iter().map(|cents| i128::from(*cents)).collect(),
    };
    let judged: Lines = file.bulks.iter().map(|bulk| state.bulk(bulk)).collect();

    let added = &state.register.added;
    put(register, 0, &((file.used + added.len()) as u32).to_be_bytes());
    let mut entries = Vec::new();
    added.iter().for_each(|entry| entry.write(&mut entries));
    put(register, unused, &entries);
    let end: Vec<i64> =
        state.positions.iter().map(|cents| i64::try_from(*cents).expect("refusal 10")).collect();
    put(positions, 0, &write_positions(&end));
    let report = report(&judged);
    put(space, 0, &report);
    (report.len() as u64, judged)
}

fn put(buffer: &mut [u8], at: usize, bytes: &[u8]) {
    buffer[at..at + bytes.len()].copy_from_slice(bytes);
}

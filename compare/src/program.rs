//! The program `judge`: bytes on standard input, lines on standard output.

use std::fmt::Write;

use crate::call::{enough_report, read_positions, read_report, Answer, Call, Judge, Judged, Trouble};
use crate::records::{
    number, take, trimmed, BulkLine, Identifier, MessageLine, Record, Row, COUNT, POSITION,
};
use crate::reference::in_set;

/// No part of the input may be longer.
pub const MOST_BYTES: usize = 16_384;
/// Printed for input of another shape.
const ANOTHER_SHAPE: u32 = 99;

/// The program's input, taken apart.
#[derive(Clone, Debug, Default, PartialEq, Eq)]
pub struct Input {
    pub date: u32,
    pub table: Vec<u8>,
    pub register: Vec<u8>,
    pub sheet: Vec<u8>,
}

impl Input {
    /// The parts of a call that the program reads.
    pub fn of(call: &Call) -> Input {
        let Call { date, table, register, sheet, .. } = call.clone();
        Input { date, table, register, sheet }
    }

    /// A date and three parts, each after its length, and nothing more. The lengths have no limit here, so that a
    /// case too long for the program can still be shown as text.
    pub fn read(mut bytes: &[u8]) -> Option<Input> {
        let date = number(take(&mut bytes, 4)?) as u32;
        let mut part = || {
            let length = number(take(&mut bytes, COUNT)?) as usize;
            take(&mut bytes, length).map(<[u8]>::to_vec)
        };
        let input = Input { date, table: part()?, register: part()?, sheet: part()? };
        bytes.is_empty().then_some(input)
    }

    pub fn bytes(&self) -> Vec<u8> {
        let mut bytes = self.date.to_be_bytes().to_vec();
        for part in [&self.table, &self.register, &self.sheet] {
            bytes.extend((part.len() as u32).to_be_bytes());
            bytes.extend(part);
        }
        bytes
    }

    fn fits(&self) -> bool {
        [&self.table, &self.register, &self.sheet].iter().all(|part| part.len() <= MOST_BYTES)
    }

    /// The call the program makes: positions of 0 for each row, and room enough for any report.
    pub fn call(&self) -> Call {
        let rows = self.table.len().saturating_sub(COUNT) / Row::WIDTH;
        Call {
            date: self.date,
            sheet: self.sheet.clone(),
            table: self.table.clone(),
            register: self.register.clone(),
            positions: vec![0; POSITION * rows],
            report: vec![0; enough_report(self.sheet.len())],
            index: Vec::new(),
        }
    }
}

/// All the program prints for these bytes, with the given judge inside it.
pub fn printed(input: &[u8], judge: &mut impl Judge) -> Result<String, Trouble> {
    let Some(input) = Input::read(input).filter(Input::fits) else {
        return Ok(format!("X {ANOTHER_SHAPE}\n"));
    };
    let mut call = input.call();
    let answer = judge.judge(&mut call)?;
    outcome(&call, answer)
}

/// What the program prints of a call that has been judged.
pub fn outcome(call: &Call, answer: Answer) -> Result<String, Trouble> {
    if answer.number != 0 {
        return Ok(format!("X {}\n", answer.number));
    }
    let report = call.report.get(..answer.length as usize).and_then(read_report);
    let report = report.ok_or("the report is not whole sections")?;
    let used = number(&call.register[..COUNT]);
    Ok(lines(&report, &read_positions(&call.positions), used))
}

fn lines(report: &[Judged], positions: &[i64], used: u128) -> String {
    let mut text = String::new();
    for judged in report {
        text += &bulk(&judged.line);
        judged.messages.iter().for_each(|line| text += &message(line));
    }
    for (row, position) in positions.iter().enumerate().filter(|(_, position)| **position != 0) {
        writeln!(text, "P {row} {position}").expect("a string takes all");
    }
    text + &format!("= {used}\n")
}

fn bulk(line: &BulkLine) -> String {
    let BulkLine { faults, accepted, accepted_cents, rejected, rejected_cents, .. } = line;
    let (identifier, outcome) = (shown(&line.identifier), letter(b"APR", line.outcome));
    format!("B {identifier} {outcome} {faults} {accepted} {accepted_cents} {rejected} {rejected_cents}\n")
}

fn message(line: &MessageLine) -> String {
    format!("M {} {} {}\n", shown(&line.identifier), letter(b"ARF", line.outcome), line.faults)
}

/// An outcome no judge may give still shows, and so differs.
fn letter(letters: &[u8; 3], outcome: u8) -> char {
    letters.get(usize::from(outcome)).map_or('?', |letter| char::from(*letter))
}

/// An identifier without its trailing spaces, with no space and no odd byte in it.
pub fn shown(identifier: &Identifier) -> String {
    let plain = |byte: &u8| match *byte {
        b' ' => '_',
        byte if in_set(byte) => char::from(byte),
        _ => '*',
    };
    match trimmed(identifier) {
        [] => "_".to_string(),
        text => text.iter().map(plain).collect(),
    }
}

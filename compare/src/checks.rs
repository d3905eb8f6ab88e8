//! Sets the archive and the program against the reference, and shows what differs.

use std::io::Write;
use std::path::Path;
use std::process::Stdio;

use crate::archive::command;
use crate::call::{read_positions, Answer, Call, IndexedAnswer, Judge, Outcomes, Trouble};
use crate::cut::Run;
use crate::days::{Calendar, Day};
use crate::program::{outcome, printed, Input};
use crate::records::number;
use crate::reference::Reference;
use crate::text;

fn equal<T: PartialEq + std::fmt::Debug>(what: &str, got: T, wanted: T) -> Result<(), Trouble> {
    if got == wanted {
        Ok(())
    } else {
        Err(format!("{what}: {got:?}, by the reference {wanted:?}"))
    }
}

/// Names the first place where two buffers differ.
fn equal_bytes(what: &str, got: &[u8], wanted: &[u8]) -> Result<(), Trouble> {
    if got == wanted {
        return Ok(());
    }
    match got.iter().zip(wanted).position(|(left, right)| left != right) {
        None => equal(&format!("{what}, length"), got.len(), wanted.len()),
        Some(place) => equal(&format!("{what}, byte {place}"), got[place], wanted[place]),
    }
}

/// Every byte that the plain judge may write.
fn equal_parts(theirs: &Call, ours: &Call) -> Result<(), Trouble> {
    equal_bytes("the register", &theirs.register, &ours.register)?;
    equal_bytes("the positions", &theirs.positions, &ours.positions)?;
    equal_bytes("the report", &theirs.report, &ours.report)
}

/// Every byte that any of the three may write.
fn equal_calls(theirs: &Call, ours: &Call) -> Result<(), Trouble> {
    equal_parts(theirs, ours)?;
    equal_bytes("the index", &theirs.index, &ours.index)
}

/// The judge by the index on a call that is not refused for it: what the plain judge answered and left.
fn as_plain(plain: &(Answer, Call), indexed: &(IndexedAnswer, Call)) -> Result<(), Trouble> {
    let (IndexedAnswer { number, length, .. }, left) = indexed;
    equal("the answer beside the plain one", Answer { number: *number, length: *length }, plain.0)?;
    equal_parts(left, &plain.1)
}

/// An index that was just built is never refused.
fn mended(judge: &mut impl Judge, call: &Call, plain: &(Answer, Call)) -> Result<(), Trouble> {
    let (mut theirs, mut ours) = (call.clone(), call.clone());
    let answer = judge.judge_indexed(&mut theirs)?;
    equal("the answer", answer, Reference.judge_indexed(&mut ours)?)?;
    equal_calls(&theirs, &ours)?;
    as_plain(plain, &(answer, theirs))
}

/// The plain judge, the judge by the index and the building of one: what they answer and every byte they may write, against
/// the reference and beside one another.
pub fn same_judgement(judge: &mut impl Judge, call: &Call) -> Result<Outcomes, Trouble> {
    let (theirs, ours) = (judge.all(call)?, Reference.all(call)?);
    equal("the answer", theirs.plain.0, ours.plain.0)?;
    equal_calls(&theirs.plain.1, &ours.plain.1)?;

    let by_index = |why| format!("by the index: {why}");
    equal("the answer", theirs.indexed.0, ours.indexed.0).map_err(by_index)?;
    equal_calls(&theirs.indexed.1, &ours.indexed.1).map_err(by_index)?;

    let building = |why| format!("building an index: {why}");
    equal("the answer", theirs.built.0, ours.built.0).map_err(building)?;
    equal_calls(&theirs.built.1, &ours.built.1).map_err(building)?;

    if ![12, 13].contains(&theirs.indexed.0.number) {
        as_plain(&theirs.plain, &theirs.indexed).map_err(by_index)?;
    } else if theirs.built.0 == 0 {
        let call = Call { index: theirs.built.1.index.clone(), ..call.clone() };
        mended(judge, &call, &theirs.plain).map_err(|why| format!("by an index just built: {why}"))?;
    }
    Ok(theirs)
}

/// Both outcomes as lines of the program, for whoever looks for the fault, and what they come to by the index.
pub fn both_outcomes(judge: &mut impl Judge, call: &Call) -> String {
    let [got, wanted] = [outcomes(judge, call), outcomes(&mut Reference, call)];
    format!("it gives\n{got}by the reference\n{wanted}")
}

fn outcomes(judge: &mut impl Judge, call: &Call) -> String {
    let (mut plain, mut indexed) = (call.clone(), call.clone());
    let lines = judge.judge(&mut plain).and_then(|answer| outcome(&plain, answer));
    let by_index = judge.judge_indexed(&mut indexed);
    let lines = shortened(&lines.unwrap_or_else(|why| why + "\n"));
    format!("{lines}by the index {by_index:?}, {}\n", shown_index(&indexed.index))
}

/// The files of a run one after another, each against the reference.
pub fn same_run(judge: &mut impl Judge, run: &Run) -> Result<(), Trouble> {
    let mut kept = run.start();
    for file in &run.files {
        kept = same_judgement(judge, &run.call(file, kept))?.indexed.1.into();
    }
    Ok(())
}

pub fn same_route(judge: &mut impl Judge, date: u32, table: &[u8], bic: &[u8]) -> Result<(), Trouble> {
    equal("the route", judge.lookup(date, table, bic)?, Reference.lookup(date, table, bic)?)
}

/// The first of several answers that differs, under its question as C asks it.
fn equal_days(got: &[Day], wanted: &[Day], question: impl Fn(usize) -> String) -> Result<(), Trouble> {
    match got.iter().zip(wanted).position(|(left, right)| left != right) {
        None => Ok(()),
        Some(place) => equal(&question(place), got[place], wanted[place]),
    }
}

/// Of each date whether it is open, and the next open day.
pub fn same_days(calendar: &mut impl Calendar, dates: &[u32]) -> Result<(), Trouble> {
    let ([open, next], [our_open, our_next]) = (calendar.days(dates)?, Reference.days(dates)?);
    equal_days(&open, &our_open, |place| format!("tynderaxo_open_day({})", dates[place]))?;
    equal_days(&next, &our_next, |place| format!("tynderaxo_next_open_day({})", dates[place]))
}

/// Of each two dates how many open days lie between them.
pub fn same_counts(calendar: &mut impl Calendar, pairs: &[[u32; 2]]) -> Result<(), Trouble> {
    equal_days(&calendar.counts(pairs)?, &Reference.counts(pairs)?, |place| {
        let [from, to] = pairs[place];
        format!("tynderaxo_open_days({from}, {to})")
    })
}

/// What a program prints for these bytes, against what the rules have it print.
pub fn same_lines(program: &Path, input: &[u8]) -> Result<(), Trouble> {
    let run = || -> std::io::Result<Vec<u8>> {
        let mut child = command(program).stdin(Stdio::piped()).stdout(Stdio::piped()).spawn()?;
        // a program may stop reading at the first byte that is wrong
        let _ = child.stdin.take().expect("the pipe was asked for").write_all(input);
        Ok(child.wait_with_output()?.stdout)
    };
    let got = run().map_err(|why| format!("{}: {why}", program.display()))?;
    let wanted = printed(input, &mut Reference)?;
    let got = String::from_utf8_lossy(&got);
    if got == wanted {
        Ok(())
    } else {
        Err(format!("the program prints\n{got}by the reference\n{wanted}"))
    }
}

/// No more lines than a person would read.
fn shortened(text: &str) -> String {
    const MOST_LINES: usize = 200;
    let lines = text.lines().count();
    let mut short: String = text.lines().take(MOST_LINES).map(|line| format!("{line}\n")).collect();
    if lines > MOST_LINES {
        short += &format!("# and {} lines more\n", lines - MOST_LINES);
    }
    short
}

/// A call as a case text; what the program's input cannot hold stands in comments.
pub fn shown(call: &Call) -> String {
    let mut text = shortened(&text::write_input(&Input::of(call)));
    let positions = read_positions(&call.positions);
    text += &format!("# positions of {} bytes", call.positions.len());
    let moved = positions.iter().enumerate().filter(|(_, position)| **position != 0);
    text += &moved.map(|(row, position)| format!(", row {row} at {position}")).collect::<String>();
    text + &format!("\n# report space of {} bytes\n# {}\n", call.report.len(), shown_index(&call.index))
}

/// The slots that are taken, no more of them than a person would read.
fn shown_index(index: &[u8]) -> String {
    const MOST_SLOTS: usize = 200;
    let slots = index.chunks(4).map(number).enumerate();
    let taken = slots.filter(|(_, name)| *name != 0).take(MOST_SLOTS);
    let taken: String = taken.map(|(slot, name)| format!(", slot {slot} names {name}")).collect();
    format!("index of {} bytes{taken}", index.len())
}

/// A run as the case texts of its files.
pub fn shown_run(run: &Run) -> String {
    let mut text = String::new();
    for (index, file) in run.files.iter().enumerate() {
        let call = run.call(file, run.start());
        text += &format!("# file {index}\n{}", shown(&call));
    }
    text
}

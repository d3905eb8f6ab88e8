//! What holds over more than one call (demand 3): a sheet cut in two judges as the whole does, and over a run of
//! files nothing is accepted twice and the positions move by exactly what was accepted.

use std::collections::{HashMap, HashSet};

use crate::call::{
    enough_report, read_positions, read_report, Answer, Call, IndexedAnswer, Judge, Judged, Route, Trouble,
};
use crate::records::{number, read_bulks, write_bulks, Bic, Bulk, Entry, Header, Message, Record, COUNT};
use crate::reference::right_index;

const ACCEPTED: u8 = 0;
const REJECTED_BULK: u8 = 2;
const MESSAGE: u8 = 1;
const BULK: u8 = 2;

/// Files judged one after another over one table, from an empty register.
#[derive(Clone, Debug, PartialEq, Eq)]
pub struct Run {
    pub table: Vec<u8>,
    pub positions: Vec<u8>,
    pub room: usize,
    pub files: Vec<File>,
}

#[derive(Clone, Debug, PartialEq, Eq)]
pub struct File {
    pub date: u32,
    pub sheet: Vec<u8>,
}

/// What goes on from one file to the next.
pub struct Kept {
    register: Vec<u8>,
    positions: Vec<u8>,
    index: Vec<u8>,
}

impl From<Call> for Kept {
    fn from(Call { register, positions, index, .. }: Call) -> Kept {
        Kept { register, positions, index }
    }
}

impl Run {
    /// The call of one file, with register, positions and index as the files before it left them.
    pub fn call(&self, file: &File, Kept { register, positions, index }: Kept) -> Call {
        let report = vec![0; enough_report(file.sheet.len())];
        Call {
            date: file.date,
            sheet: file.sheet.clone(),
            table: self.table.clone(),
            register,
            positions,
            report,
            index,
        }
    }

    /// A register and an index without entries.
    pub fn start(&self) -> Kept {
        let register = vec![0; COUNT + self.room * Entry::WIDTH];
        let index = right_index(&register);
        Kept { register, positions: self.positions.clone(), index }
    }
}

/// A judge that is asked by the index: what holds over several calls has to hold so too. And what it leaves has to be the
/// index of the register it leaves.
pub struct ByIndex<'a, J: Judge>(pub &'a mut J);

impl<J: Judge> Judge for ByIndex<'_, J> {
    fn judge(&mut self, call: &mut Call) -> Result<Answer, Trouble> {
        let was_right = call.index == right_index(&call.register);
        let IndexedAnswer { number, length, .. } = self.0.judge_indexed(call)?;
        if was_right && [12, 13].contains(&number) {
            return Err("the index of the register is refused".to_string());
        }
        if was_right && call.index != right_index(&call.register) {
            return Err("the index left is not that of the register left".to_string());
        }
        Ok(Answer { number, length })
    }

    fn judge_indexed(&mut self, call: &mut Call) -> Result<IndexedAnswer, Trouble> {
        self.0.judge_indexed(call)
    }

    fn build_index(&mut self, register: &[u8], index: &mut [u8]) -> Result<u32, Trouble> {
        self.0.build_index(register, index)
    }

    fn lookup(&mut self, date: u32, table: &[u8], bic: &[u8]) -> Result<Route, Trouble> {
        self.0.lookup(date, table, bic)
    }
}

/// Judges and reads the report; none where the judge refuses.
fn judged(judge: &mut impl Judge, call: &mut Call) -> Result<Option<Vec<Judged>>, Trouble> {
    let answer = judge.judge(call)?;
    if answer.number != 0 {
        return Ok(None);
    }
    let report = call.report.get(..answer.length as usize).and_then(read_report);
    report.map(Some).ok_or_else(|| "the report is not whole sections".to_string())
}

/// Cuts the sheet before every bulk and after the last; each cut must come to what the whole comes to.
pub fn cuts(judge: &mut impl Judge, call: &Call) -> Result<(), Trouble> {
    let mut whole = call.clone();
    let Some(lines) = judged(judge, &mut whole)? else {
        return Ok(());
    };
    let bulks = read_bulks(&mut &call.sheet[..]).ok_or("a sheet that ends early was judged")?;
    for place in 0..=bulks.len() {
        cut(judge, call, &bulks, place, &lines, &whole)
            .map_err(|why| format!("cut at bulk {place}: {why}"))?;
    }
    Ok(())
}

fn cut(
    judge: &mut impl Judge,
    call: &Call,
    bulks: &[Bulk],
    place: usize,
    lines: &[Judged],
    whole: &Call,
) -> Result<(), Trouble> {
    let mut part = call.clone();
    let mut together = Vec::new();
    for (name, bulks) in [("first", &bulks[..place]), ("second", &bulks[place..])] {
        part.sheet = write_bulks(bulks);
        part.report = vec![0; enough_report(part.sheet.len())];
        together.extend(judged(judge, &mut part)?.ok_or_else(|| format!("the {name} part is refused"))?);
    }
    let equal = [
        ("lines", together == lines),
        ("register", part.register == whole.register),
        ("positions", part.positions == whole.positions),
        ("index", part.index == whole.index),
    ];
    match equal.iter().find(|(_, equal)| !equal) {
        Some((name, _)) => Err(format!("the {name} of the parts are not those of the whole")),
        None => Ok(()),
    }
}

/// What a run has accepted so far.
struct Accepted {
    entries: HashSet<Entry>,
    positions: Vec<i128>,
    /// Rows looked up before, by date and BIC: a run has one table.
    rows: HashMap<(u32, Bic), usize>,
}

/// Judges the files in order, refused ones among them, and checks what they come to.
pub fn run(judge: &mut impl Judge, run: &Run) -> Result<(), Trouble> {
    let start = read_positions(&run.positions).into_iter().map(i128::from).collect();
    let mut accepted = Accepted { entries: HashSet::new(), positions: start, rows: HashMap::new() };
    let mut kept = run.start();
    for (index, file) in run.files.iter().enumerate() {
        let before = run.call(file, kept);
        let mut call = before.clone();
        match judged(judge, &mut call)? {
            None if call != before => {
                return Err(format!("file {index} is refused and yet changes something"))
            }
            None => (),
            Some(lines) => {
                accepted.file(judge, &call, &lines).map_err(|why| format!("file {index}: {why}"))?
            }
        }
        kept = call.into();
    }
    accepted.comes_to(&kept.register, &kept.positions)
}

impl Accepted {
    fn file(&mut self, judge: &mut impl Judge, call: &Call, lines: &[Judged]) -> Result<(), Trouble> {
        let bulks = read_bulks(&mut &call.sheet[..]).ok_or("a sheet that ends early was judged")?;
        if bulks.len() != lines.len() {
            return Err("the report has another number of bulks".to_string());
        }
        for (bulk, judged) in bulks.iter().zip(lines) {
            if bulk.messages.len() != judged.messages.len() {
                return Err("the report has another number of messages".to_string());
            }
            let pairs = bulk.messages.iter().zip(&judged.messages);
            for (message, _) in pairs.filter(|pair| pair.1.outcome == ACCEPTED) {
                self.message(judge, call, &bulk.header, message)?;
            }
            if judged.line.outcome != REJECTED_BULK {
                self.entry(&bulk.header, bulk.header.identifier, BULK)?;
            }
        }
        Ok(())
    }

    fn entry(&mut self, header: &Header, identifier: [u8; 35], tag: u8) -> Result<(), Trouble> {
        let new = self.entries.insert(Entry { sender: header.sender, identifier, tag });
        new.then_some(()).ok_or_else(|| "an identifier of one sender is accepted twice".to_string())
    }

    fn message(
        &mut self,
        judge: &mut impl Judge,
        call: &Call,
        header: &Header,
        message: &Message,
    ) -> Result<(), Trouble> {
        self.entry(header, message.identifier, MESSAGE)?;
        let mut sender: Bic = *b"........XXX";
        sender[..8].copy_from_slice(&header.sender);
        let (from, to) = (self.row(judge, call, sender)?, self.row(judge, call, message.receiver)?);
        self.positions[from] -= i128::from(message.amount);
        self.positions[to] += i128::from(message.amount);
        Ok(())
    }

    fn row(&mut self, judge: &mut impl Judge, call: &Call, bic: Bic) -> Result<usize, Trouble> {
        if let Some(row) = self.rows.get(&(call.date, bic)) {
            return Ok(*row);
        }
        let route = judge.lookup(call.date, &call.table, &bic)?;
        if (route.number, route.found) != (0, 1) {
            return Err("an accepted message has no row".to_string());
        }
        self.rows.insert((call.date, bic), route.row as usize);
        Ok(route.row as usize)
    }

    /// The register holds what was accepted and nothing else; the positions are the start and what moved.
    fn comes_to(&self, register: &[u8], positions: &[u8]) -> Result<(), Trouble> {
        let used = number(&register[..COUNT]) as usize;
        let entries: HashSet<Entry> =
            register[COUNT..].chunks(Entry::WIDTH).take(used).map(Entry::read).collect();
        if used != self.entries.len() || entries != self.entries {
            return Err("the register does not hold exactly what was accepted".to_string());
        }
        let end: Vec<i128> = read_positions(positions).into_iter().map(i128::from).collect();
        let equal = end == self.positions;
        equal.then_some(()).ok_or_else(|| "the positions are not the start and what was accepted".to_string())
    }
}

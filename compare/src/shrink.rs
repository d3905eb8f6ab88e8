//! Makes a failing case smaller as long as it still fails.

use std::time::{Duration, Instant};

use crate::call::{enough_report, Call};
use crate::cut::Run;
use crate::records::{
    padded, read_bulks, read_section, write_bulks, write_section, Bulk, Entry, Record, Row, POSITION,
};
use crate::reference::right_index;

/// One way to make a case smaller or plainer. Ranges are given by their first index and their length.
#[derive(Clone, Copy, Debug)]
enum Edit {
    Bulks(usize, usize),
    Messages(usize, usize, usize),
    PlainHeader(usize),
    PlainMessage(usize, usize),
    SheetBytes(usize, usize),
    Rows(usize, usize),
    PlainRow(usize),
    TableBytes(usize, usize),
    Entries(usize, usize),
    ClearFree,
    TightRoom,
    RegisterBytes(usize, usize),
    ZeroPositions,
    PlainReport,
    /// Bytes of the index as they are in that of the register.
    MendIndex(usize, usize),
}

/// Ranges to try to leave out: all, then halves, quarters and so on down to single ones.
fn ranges(length: usize) -> Vec<(usize, usize)> {
    let sizes = std::iter::successors(Some(length), |size| (*size > 1).then_some(size.div_ceil(2)));
    let of = |size: usize| (0..length).step_by(size.max(1)).map(move |from| (from, size.min(length - from)));
    sizes.flat_map(of).collect()
}

fn whole_bulks(mut sheet: &[u8]) -> Option<Vec<Bulk>> {
    read_bulks(&mut sheet).filter(|_| sheet.is_empty())
}

fn whole_rows(mut table: &[u8]) -> Option<Vec<Row>> {
    read_section(&mut table).filter(|_| table.is_empty())
}

/// The entries in use and the bytes after them, where the register is whole.
fn whole_register(register: &[u8]) -> Option<(Vec<Entry>, &[u8])> {
    let mut free = register;
    let entries = read_section(&mut free)?;
    (free.len() % Entry::WIDTH == 0).then_some((entries, free))
}

fn sheet_edits(sheet: &[u8]) -> Vec<Edit> {
    let Some(bulks) = whole_bulks(sheet) else {
        return ranges(sheet.len()).into_iter().map(|(from, count)| Edit::SheetBytes(from, count)).collect();
    };
    let mut edits: Vec<Edit> =
        ranges(bulks.len()).into_iter().map(|(from, count)| Edit::Bulks(from, count)).collect();
    for (index, bulk) in bulks.iter().enumerate() {
        let messages = ranges(bulk.messages.len());
        edits.extend(messages.into_iter().map(|(from, count)| Edit::Messages(index, from, count)));
    }
    for (index, bulk) in bulks.iter().enumerate() {
        edits.push(Edit::PlainHeader(index));
        edits.extend((0..bulk.messages.len()).map(|message| Edit::PlainMessage(index, message)));
    }
    edits
}

fn table_edits(table: &[u8]) -> Vec<Edit> {
    let Some(rows) = whole_rows(table) else {
        return ranges(table.len()).into_iter().map(|(from, count)| Edit::TableBytes(from, count)).collect();
    };
    let removed = ranges(rows.len()).into_iter().map(|(from, count)| Edit::Rows(from, count));
    removed.chain((0..rows.len()).map(Edit::PlainRow)).collect()
}

fn register_edits(register: &[u8]) -> Vec<Edit> {
    let Some((entries, _)) = whole_register(register) else {
        return ranges(register.len())
            .into_iter()
            .map(|(from, count)| Edit::RegisterBytes(from, count))
            .collect();
    };
    let removed = ranges(entries.len()).into_iter().map(|(from, count)| Edit::Entries(from, count));
    removed.chain([Edit::TightRoom, Edit::ClearFree]).collect()
}

/// An index of another length is mended whole.
fn index_edits(call: &Call) -> Vec<Edit> {
    let right = right_index(&call.register);
    if call.index == right {
        return Vec::new();
    }
    let mended = if call.index.len() == right.len() { ranges(right.len() / 4) } else { Vec::new() };
    let whole = [Edit::MendIndex(0, usize::MAX)].into_iter();
    whole.chain(mended.into_iter().map(|(from, count)| Edit::MendIndex(4 * from, 4 * count))).collect()
}

/// The bulks of a sheet after an edit. What a header says too much or too little, it goes on saying.
fn edit_bulks(bulks: &mut Vec<Bulk>, edit: Edit, date: u32) {
    match edit {
        Edit::Bulks(from, count) => drop(bulks.drain(from..from + count)),
        Edit::Messages(bulk, from, count) => {
            let Bulk { header, messages } = &mut bulks[bulk];
            for message in messages.drain(from..from + count) {
                header.number = header.number.wrapping_sub(1);
                header.sum = header.sum.wrapping_sub(message.amount);
            }
        }
        Edit::PlainHeader(bulk) => {
            let Bulk { header, messages } = &mut bulks[bulk];
            let amounts = messages.iter().map(|message| message.amount);
            (header.sum, header.number) = (amounts.fold(0, u64::wrapping_add), messages.len() as u64);
            (header.date, header.marks) = (date, 3);
        }
        Edit::PlainMessage(bulk, message) => {
            let Bulk { header, messages } = &mut bulks[bulk];
            let message = &mut messages[message];
            header.sum = header.sum.wrapping_sub(message.amount).wrapping_add(1);
            (message.amount, message.original) = (1, 0);
            (message.reason, message.name) = (padded(b""), padded(b""));
        }
        _ => (),
    }
}

fn edit_sheet(sheet: &mut Vec<u8>, edit: Edit, date: u32) {
    if let Edit::SheetBytes(from, count) = edit {
        sheet.drain(from..from + count);
    } else if let Some(mut bulks) = whole_bulks(sheet) {
        edit_bulks(&mut bulks, edit, date);
        *sheet = write_bulks(&bulks);
    }
}

/// A row takes its position along.
fn edit_table(table: &mut Vec<u8>, positions: &mut Vec<u8>, edit: Edit) {
    match (edit, whole_rows(table)) {
        (Edit::TableBytes(from, count), _) => drop(table.drain(from..from + count)),
        (Edit::Rows(from, count), Some(rows)) => {
            if positions.len() == POSITION * rows.len() {
                positions.drain(POSITION * from..POSITION * (from + count));
            }
            let kept: Vec<Row> = [&rows[..from], &rows[from + count..]].concat();
            table.clear();
            write_section(&kept, table);
        }
        (Edit::PlainRow(row), Some(mut rows)) => {
            (rows[row].first, rows[row].last) = (20000101, 22991231);
            table.clear();
            write_section(&rows, table);
        }
        _ => (),
    }
}

fn edit_register(register: &mut Vec<u8>, edit: Edit, needed: usize) {
    if let Edit::RegisterBytes(from, count) = edit {
        register.drain(from..from + count);
        return;
    }
    let Some((mut entries, free)) = whole_register(register) else {
        return;
    };
    let mut free = free.to_vec();
    match edit {
        Edit::Entries(from, count) => drop(entries.drain(from..from + count)),
        Edit::ClearFree => free.fill(0),
        Edit::TightRoom => free.truncate(needed * Entry::WIDTH),
        _ => (),
    }
    register.clear();
    write_section(&entries, register);
    register.extend(free);
}

fn call_edits(call: &Call) -> Vec<Edit> {
    let mut edits = sheet_edits(&call.sheet);
    edits.extend(table_edits(&call.table));
    edits.extend(register_edits(&call.register));
    edits.extend([Edit::ZeroPositions, Edit::PlainReport]);
    edits.extend(index_edits(call));
    edits
}

fn edited_call(call: &Call, edit: Edit) -> Call {
    // an index that is the register's goes on being that
    let follows = call.index == right_index(&call.register);
    let mut call = call.clone();
    edit_sheet(&mut call.sheet, edit, call.date);
    edit_table(&mut call.table, &mut call.positions, edit);
    let needed =
        whole_bulks(&call.sheet).map_or(0, |bulks| bulks.iter().map(|bulk| 1 + bulk.messages.len()).sum());
    edit_register(&mut call.register, edit, needed);
    match edit {
        Edit::ZeroPositions => call.positions.fill(0),
        Edit::PlainReport => call.report = vec![0; enough_report(call.sheet.len())],
        Edit::MendIndex(_, usize::MAX) => call.index = right_index(&call.register),
        Edit::MendIndex(from, count) => {
            let right = right_index(&call.register);
            call.index[from..from + count].copy_from_slice(&right[from..from + count]);
        }
        _ if follows => call.index = right_index(&call.register),
        _ => (),
    }
    call
}

/// Tries edit after edit, and begins again from each smaller case that fails, until none does or the time is up.
fn smallest<T: Clone + PartialEq, E: Copy>(
    mut best: T,
    most_time: Duration,
    edits: impl Fn(&T) -> Vec<E>,
    edited: impl Fn(&T, E) -> T,
    mut fails: impl FnMut(&T) -> bool,
) -> T {
    let start = Instant::now();
    loop {
        let smaller = edits(&best).into_iter().map(|edit| edited(&best, edit)).filter(|next| *next != best);
        let mut in_time = smaller.take_while(|_| start.elapsed() < most_time);
        match in_time.find(|next| fails(next)) {
            Some(next) => best = next,
            None => return best,
        }
    }
}

/// The smallest call found that still fails.
pub fn call(start: Call, most_time: Duration, fails: impl FnMut(&Call) -> bool) -> Call {
    smallest(start, most_time, call_edits, edited_call, fails)
}

/// The smallest run found that still fails: fewer files, then smaller ones, then fewer rows.
pub fn run(start: Run, most_time: Duration, fails: impl FnMut(&Run) -> bool) -> Run {
    let edits = |run: &Run| {
        let mut edits: Vec<(usize, Option<Edit>)> = (0..run.files.len()).map(|file| (file, None)).collect();
        for (index, file) in run.files.iter().enumerate() {
            edits.extend(sheet_edits(&file.sheet).into_iter().map(|edit| (index, Some(edit))));
        }
        edits.extend(table_edits(&run.table).into_iter().map(|edit| (0, Some(edit))));
        edits
    };
    let edited = |run: &Run, (file, edit): (usize, Option<Edit>)| {
        let mut run = run.clone();
        match edit {
            None => drop(run.files.remove(file)),
            Some(edit) => {
                edit_table(&mut run.table, &mut run.positions, edit);
                let date = run.files.get(file).map_or(0, |file| file.date);
                run.files.get_mut(file).into_iter().for_each(|file| edit_sheet(&mut file.sheet, edit, date));
            }
        }
        run
    };
    smallest(start, most_time, edits, edited, fails)
}

//! Input bytes as a case text.

use super::words::{hex, word};
use crate::program::Input;
use crate::records::{number, read_bulks, Bulk, Entry, Header, Message, Record, Row, COUNT};

/// Any bytes at all: those of another shape become `raw input` lines.
pub fn write(bytes: &[u8]) -> String {
    match Input::read(bytes) {
        Some(input) => write_input(&input),
        None => raw("input", bytes),
    }
}

pub fn write_input(input: &Input) -> String {
    let mut text = format!("date {}\n", input.date);
    text += &table(&input.table).unwrap_or_else(|| raw("table", &input.table));
    text += &register(&input.register).unwrap_or_else(|| raw("register", &input.register));
    text + &write_sheet(&input.sheet, Some(input.date))
}

/// The lines of a sheet alone; a bulk's date is left out where it is the given one.
pub fn write_sheet(bytes: &[u8], date: Option<u32>) -> String {
    sheet(bytes, date).unwrap_or_else(|| raw("sheet", bytes))
}

/// Some lines of digits, and at least one, so that a part of no bytes shows too.
fn raw(part: &str, bytes: &[u8]) -> String {
    if bytes.is_empty() {
        return format!("raw {part}\n");
    }
    bytes.chunks(40).map(|chunk| format!("raw {part} {}\n", hex(chunk))).collect()
}

/// The records after a count, where they are whole ones.
fn counted<R: Record>(part: &[u8]) -> Option<(usize, Vec<R>)> {
    let (count, records) = part.split_at_checked(COUNT)?;
    let whole = records.len() % R::WIDTH == 0;
    whole.then(|| (number(count) as usize, records.chunks(R::WIDTH).map(R::read).collect()))
}

fn table(table: &[u8]) -> Option<String> {
    let (count, rows) = counted::<Row>(table)?;
    let mut text: String = rows.iter().map(row).collect();
    if count != rows.len() || rows.is_empty() {
        text += &format!("rows {count}\n");
    }
    Some(text)
}

fn row(row: &Row) -> String {
    format!("row {} {} {} {}\n", word(&row.bic), row.first, row.last, row.kind)
}

/// Shows the entries in use, and those after them up to the last that holds a byte.
fn register(register: &[u8]) -> Option<String> {
    let (used, entries) = counted::<Entry>(register)?;
    let written =
        register[COUNT..].chunks(Entry::WIDTH).rposition(|entry| entry.iter().any(|byte| *byte != 0));
    let shown = used.min(entries.len()).max(written.map_or(0, |last| last + 1));
    let stated = if used == shown { String::new() } else { format!(" used {used}") };
    let lines: String = entries[..shown].iter().map(entry).collect();
    Some(format!("register {}{stated}\n{lines}", entries.len()))
}

fn entry(entry: &Entry) -> String {
    format!("entry {} {} {}\n", word(&entry.sender), word(&entry.identifier), entry.tag)
}

fn sheet(mut sheet: &[u8], date: Option<u32>) -> Option<String> {
    let bulks = read_bulks(&mut sheet)?;
    let mut text: String = bulks.iter().map(|one| bulk(one, date)).collect();
    if bulks.is_empty() {
        text += "bulks 0\n";
    }
    if !sheet.is_empty() {
        text += &raw("sheet", sheet);
    }
    Some(text)
}

/// Leaves out what has its usual value.
fn bulk(bulk: &Bulk, date: Option<u32>) -> String {
    let Bulk { header, messages } = bulk;
    let Header { identifier, sender, .. } = header;
    let sum: u128 = messages.iter().map(|message| u128::from(message.amount)).sum();
    let settings = [
        ("kind", u64::from(header.kind), header.kind != 1),
        ("number", header.number, header.number != messages.len() as u64),
        ("sum", header.sum, u128::from(header.sum) != sum),
        ("date", u64::from(header.date), Some(header.date) != date),
        ("marks", u64::from(header.marks), header.marks != 3),
    ];
    let unusual = settings.iter().filter(|(_, _, unusual)| *unusual);
    let unusual: String = unusual.map(|(name, value, _)| format!(" {name} {value}")).collect();
    let lines: String = messages.iter().map(message).collect();
    format!("bulk {} {}{unusual}\n{lines}", word(identifier), word(sender))
}

fn message(message: &Message) -> String {
    let mut line =
        format!("message {} {} {}", word(&message.identifier), word(&message.receiver), message.amount);
    if message.original != 0 {
        line += &format!(" original {}", message.original);
    }
    for (name, field) in [("reason", &message.reason[..]), ("name", &message.name[..])] {
        if field.iter().any(|byte| *byte != b' ') {
            line += &format!(" {name} {}", word(field));
        }
    }
    line + "\n"
}

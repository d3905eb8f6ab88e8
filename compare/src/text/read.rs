//! A case text as input bytes.

use super::words::Words;
use crate::records::{padded, write_section, Entry, Header, Message, Record, Row};

/// The parts of an input, in their order; the last is the input itself.
const PARTS: [&str; 4] = ["table", "register", "sheet", "input"];
const TABLE: usize = 0;
const REGISTER: usize = 1;
const SHEET: usize = 2;
const INPUT: usize = 3;

enum Edit {
    Cut(usize),
    Add(Vec<u8>),
}

/// A bulk as far as its lines say.
struct BulkDraft {
    line: usize,
    header: Header,
    number: Option<u64>,
    sum: Option<u64>,
    date: Option<u32>,
    count: Option<u32>,
    messages: Vec<Message>,
}

/// A case as far as its lines say.
#[derive(Default)]
struct Draft {
    line: usize,
    date: Option<u32>,
    rows: Vec<Row>,
    stated_rows: Option<u32>,
    room: Option<usize>,
    used: Option<u32>,
    entries: Vec<Entry>,
    bulks: Vec<BulkDraft>,
    stated_bulks: Option<u32>,
    edits: Vec<(usize, usize, Edit)>,
    lengths: [Option<u32>; 3],
}

/// The bytes a text stands for, or the line that is wrong and why.
pub fn read(text: &str) -> Result<Vec<u8>, String> {
    let mut draft = Draft::default();
    for (index, line) in text.lines().enumerate() {
        draft.line = index + 1;
        draft.take(Words::of(line)).map_err(|why| format!("line {}: {why}", index + 1))?;
    }
    draft.input()
}

impl Draft {
    fn take(&mut self, mut words: Words) -> Result<(), String> {
        let Some(first) = words.next() else { return Ok(()) };
        match first {
            "date" => once(&mut self.date, words.number("date")?)?,
            "row" => self.rows.push(row(&mut words)?),
            "rows" => once(&mut self.stated_rows, words.number("rows")?)?,
            "register" => self.register(&mut words)?,
            "entry" => self.entries.push(entry(&mut words)?),
            "bulk" => self.bulks.push(bulk(&mut words, self.line)?),
            "bulks" => once(&mut self.stated_bulks, words.number("bulks")?)?,
            "message" => {
                let bulk = self.bulks.last_mut().ok_or("a message stands before any bulk")?;
                bulk.messages.push(message(&mut words)?);
            }
            "cut" => {
                let part = part(&mut words, &PARTS)?;
                let bytes = words.number::<u32>("bytes")? as usize;
                self.edits.push((self.line, part, Edit::Cut(bytes)));
            }
            "raw" => {
                let part = part(&mut words, &PARTS)?;
                self.edits.push((self.line, part, Edit::Add(words.hex()?)));
            }
            "zeros" => {
                let part = part(&mut words, &PARTS)?;
                let bytes = words.number::<u16>("bytes")?.into();
                self.edits.push((self.line, part, Edit::Add(vec![0; bytes])));
            }
            "length" => {
                let part = part(&mut words, &PARTS[..INPUT])?;
                once(&mut self.lengths[part], words.number("length")?)?;
            }
            other => return Err(format!("{other} is no kind of line")),
        }
        words.end()
    }

    fn register(&mut self, words: &mut Words) -> Result<(), String> {
        once(&mut self.room, words.number::<u32>("room")? as usize)?;
        match words.next() {
            None => Ok(()),
            Some("used") => once(&mut self.used, words.number("used")?),
            Some(other) => Err(format!("{other} is no setting of a register")),
        }
    }

    fn input(&self) -> Result<Vec<u8>, String> {
        let Some(date) = self.date else {
            return self.without_date();
        };
        let table = self.table();
        let register = self.register_bytes()?;
        let sheet = self.sheet(date)?;
        let mut input = date.to_be_bytes().to_vec();
        for (part, own) in [(TABLE, table), (REGISTER, register), (SHEET, sheet)] {
            let bytes = self.edited(part, own)?;
            input.extend(self.lengths[part].unwrap_or(bytes.len() as u32).to_be_bytes());
            input.extend(bytes);
        }
        self.edited(INPUT, Some(input))
    }

    /// Only raw bytes may stand in a text that gives no date.
    fn without_date(&self) -> Result<Vec<u8>, String> {
        let stray = self.table().is_some() || self.room.is_some() || !self.entries.is_empty();
        let stray = stray || !self.bulks.is_empty() || self.stated_bulks.is_some();
        let stray = stray || self.lengths.iter().any(Option::is_some);
        let stray = stray || self.edits.iter().any(|(_, part, _)| *part != INPUT);
        if stray || self.edits.is_empty() {
            return Err(format!("line {}: the text ends without a date line", self.line));
        }
        self.edited(INPUT, None)
    }

    /// None where no line says anything of the table.
    fn table(&self) -> Option<Vec<u8>> {
        if self.rows.is_empty() && self.stated_rows.is_none() {
            return None;
        }
        let mut table = Vec::new();
        write_section(&self.rows, &mut table);
        restate(&mut table, self.stated_rows);
        Some(table)
    }

    fn register_bytes(&self) -> Result<Option<Vec<u8>>, String> {
        if self.entries.is_empty() && self.room.is_none() {
            return Ok(None);
        }
        let room = self.room.unwrap_or(self.entries.len());
        let free = room.checked_sub(self.entries.len()).ok_or_else(|| {
            format!("line {}: a register for {room} is given {} entries", self.line, self.entries.len())
        })?;
        let mut register = Vec::new();
        write_section(&self.entries, &mut register);
        register.resize(register.len() + free * Entry::WIDTH, 0);
        restate(&mut register, self.used);
        Ok(Some(register))
    }

    fn sheet(&self, date: u32) -> Result<Option<Vec<u8>>, String> {
        if self.bulks.is_empty() && self.stated_bulks.is_none() {
            return Ok(None);
        }
        let mut sheet = Vec::new();
        let headers = self.bulks.iter().map(|bulk| bulk.header(date)).collect::<Result<Vec<_>, _>>()?;
        write_section(&headers, &mut sheet);
        restate(&mut sheet, self.stated_bulks);
        for bulk in &self.bulks {
            let mut section = Vec::new();
            write_section(&bulk.messages, &mut section);
            restate(&mut section, bulk.count);
            sheet.extend(section);
        }
        Ok(Some(sheet))
    }

    /// A part with its cuts and raw bytes, in the order of their lines.
    fn edited(&self, part: usize, own: Option<Vec<u8>>) -> Result<Vec<u8>, String> {
        let mut edits = self.edits.iter().filter(|(_, of, _)| *of == part).peekable();
        let mut bytes = match own {
            Some(own) => own,
            None if edits.peek().is_some() => Vec::new(),
            None => vec![0; 4],
        };
        for (line, _, edit) in edits {
            match edit {
                Edit::Cut(count) => {
                    let left = bytes.len().checked_sub(*count);
                    bytes.truncate(left.ok_or_else(|| format!("line {line}: {} is too short", PARTS[part]))?);
                }
                Edit::Add(more) => bytes.extend(more),
            }
        }
        Ok(bytes)
    }
}

impl BulkDraft {
    /// The header, with what was left out taken from the messages and the call.
    fn header(&self, date: u32) -> Result<Header, String> {
        let sum: u128 = self.messages.iter().map(|message| u128::from(message.amount)).sum();
        let sum = self.sum.or(u64::try_from(sum).ok());
        Ok(Header {
            number: self.number.unwrap_or(self.messages.len() as u64),
            sum: sum.ok_or_else(|| {
                format!("line {}: the sum passes eight bytes and must be stated", self.line)
            })?,
            date: self.date.unwrap_or(date),
            ..self.header.clone()
        })
    }
}

fn once<T>(place: &mut Option<T>, value: T) -> Result<(), String> {
    match place.replace(value) {
        None => Ok(()),
        Some(_) => Err("this is said twice".to_string()),
    }
}

/// Writes another count over a section's own.
fn restate(section: &mut [u8], count: Option<u32>) {
    if let Some(count) = count {
        section[..4].copy_from_slice(&count.to_be_bytes());
    }
}

fn part(words: &mut Words, parts: &[&str]) -> Result<usize, String> {
    let name = words.want("part")?;
    parts
        .iter()
        .position(|part| *part == name)
        .ok_or_else(|| format!("{name} is none of {}", parts.join(", ")))
}

fn row(words: &mut Words) -> Result<Row, String> {
    Ok(Row {
        bic: words.field("BIC")?,
        first: words.number("first date")?,
        last: words.number("last date")?,
        kind: words.number("kind")?,
    })
}

fn entry(words: &mut Words) -> Result<Entry, String> {
    Ok(Entry {
        sender: words.field("sender")?,
        identifier: words.field("identifier")?,
        tag: words.number("tag")?,
    })
}

fn bulk(words: &mut Words, line: usize) -> Result<BulkDraft, String> {
    let (identifier, sender) = (words.field("identifier")?, words.field("sender")?);
    let header = Header { kind: 1, identifier, sender, number: 0, sum: 0, date: 0, marks: 3 };
    let mut bulk =
        BulkDraft { line, header, number: None, sum: None, date: None, count: None, messages: Vec::new() };
    while let Some(setting) = words.next() {
        match setting {
            "kind" => bulk.header.kind = words.number("kind")?,
            "marks" => bulk.header.marks = words.number("marks")?,
            "number" => once(&mut bulk.number, words.number("number")?)?,
            "sum" => once(&mut bulk.sum, words.number("sum")?)?,
            "date" => once(&mut bulk.date, words.number("date")?)?,
            "count" => once(&mut bulk.count, words.number("count")?)?,
            other => return Err(format!("{other} is no setting of a bulk")),
        }
    }
    Ok(bulk)
}

fn message(words: &mut Words) -> Result<Message, String> {
    let mut message = Message {
        identifier: words.field("identifier")?,
        receiver: words.field("receiver")?,
        amount: words.number("amount")?,
        original: 0,
        reason: padded(b""),
        name: padded(b""),
    };
    while let Some(setting) = words.next() {
        match setting {
            "original" => message.original = words.number("original")?,
            "reason" => message.reason = words.field("reason")?,
            "name" => message.name = words.field("name")?,
            other => return Err(format!("{other} is no setting of a message")),
        }
    }
    Ok(message)
}

//! The records of the rules, each layout said once, and sections of them.

pub type Identifier = [u8; 35];
pub type Sender = [u8; 8];
pub type Bic = [u8; 11];

/// A section opens with the number of its records.
pub const COUNT: usize = 4;
/// One signed position.
pub const POSITION: usize = 8;

/// Something of a fixed width that is read from bytes and written back as the same bytes.
pub trait Record: Sized {
    const WIDTH: usize;
    /// Takes exactly `WIDTH` bytes.
    fn read(bytes: &[u8]) -> Self;
    fn write(&self, to: &mut Vec<u8>);
}

#[derive(Clone, Debug, PartialEq, Eq)]
pub struct Header {
    pub kind: u8,
    pub identifier: Identifier,
    pub sender: Sender,
    pub number: u64,
    pub sum: u64,
    pub date: u32,
    pub marks: u8,
}

#[derive(Clone, Debug, PartialEq, Eq)]
pub struct Message {
    pub identifier: Identifier,
    pub receiver: Bic,
    pub amount: u64,
    pub original: u64,
    pub reason: [u8; 4],
    pub name: [u8; 15],
}

/// A header with the messages of its section.
#[derive(Clone, Debug, PartialEq, Eq)]
pub struct Bulk {
    pub header: Header,
    pub messages: Vec<Message>,
}

#[derive(Clone, Debug, PartialEq, Eq)]
pub struct Row {
    pub bic: Bic,
    pub first: u32,
    pub last: u32,
    pub kind: u8,
}

#[derive(Clone, Debug, PartialEq, Eq, Hash)]
pub struct Entry {
    pub sender: Sender,
    pub identifier: Identifier,
    pub tag: u8,
}

#[derive(Clone, Debug, PartialEq, Eq)]
pub struct BulkLine {
    pub identifier: Identifier,
    pub outcome: u8,
    pub faults: u16,
    pub accepted: u32,
    pub accepted_cents: u64,
    pub rejected: u32,
    pub rejected_cents: u128,
}

#[derive(Clone, Debug, PartialEq, Eq)]
pub struct MessageLine {
    pub identifier: Identifier,
    pub outcome: u8,
    pub faults: u16,
}

/// Reads a big-endian number of at most 16 bytes.
pub fn number(bytes: &[u8]) -> u128 {
    bytes.iter().fold(0, |value, byte| value << 8 | u128::from(*byte))
}

/// Takes a record apart from the front.
struct Fields<'a>(&'a [u8]);

impl Fields<'_> {
    fn text<const WIDTH: usize>(&mut self) -> [u8; WIDTH] {
        let (field, rest) = self.0.split_at(WIDTH);
        self.0 = rest;
        field.try_into().expect("the split gives the width")
    }

    fn number<T: TryFrom<u128>>(&mut self, width: usize) -> T {
        let (field, rest) = self.0.split_at(width);
        self.0 = rest;
        T::try_from(number(field)).ok().expect("a field is no wider than its type")
    }
}

impl Record for Header {
    const WIDTH: usize = 65;

    fn read(bytes: &[u8]) -> Header {
        let mut fields = Fields(bytes);
        Header {
            kind: fields.number(1),
            identifier: fields.text(),
            sender: fields.text(),
            number: fields.number(8),
            sum: fields.number(8),
            date: fields.number(4),
            marks: fields.number(1),
        }
    }

    fn write(&self, to: &mut Vec<u8>) {
        to.push(self.kind);
        to.extend(self.identifier);
        to.extend(self.sender);
        to.extend(self.number.to_be_bytes());
        to.extend(self.sum.to_be_bytes());
        to.extend(self.date.to_be_bytes());
        to.push(self.marks);
    }
}

impl Record for Message {
    const WIDTH: usize = 81;

    fn read(bytes: &[u8]) -> Message {
        let mut fields = Fields(bytes);
        Message {
            identifier: fields.text(),
            receiver: fields.text(),
            amount: fields.number(8),
            original: fields.number(8),
            reason: fields.text(),
            name: fields.text(),
        }
    }

    fn write(&self, to: &mut Vec<u8>) {
        to.extend(self.identifier);
        to.extend(self.receiver);
        to.extend(self.amount.to_be_bytes());
        to.extend(self.original.to_be_bytes());
        to.extend(self.reason);
        to.extend(self.name);
    }
}

impl Record for Row {
    const WIDTH: usize = 20;

    fn read(bytes: &[u8]) -> Row {
        let mut fields = Fields(bytes);
        Row { bic: fields.text(), first: fields.number(4), last: fields.number(4), kind: fields.number(1) }
    }

    fn write(&self, to: &mut Vec<u8>) {
        to.extend(self.bic);
        to.extend(self.first.to_be_bytes());
        to.extend(self.last.to_be_bytes());
        to.push(self.kind);
    }
}

impl Record for Entry {
    const WIDTH: usize = 44;

    fn read(bytes: &[u8]) -> Entry {
        let mut fields = Fields(bytes);
        Entry { sender: fields.text(), identifier: fields.text(), tag: fields.number(1) }
    }

    fn write(&self, to: &mut Vec<u8>) {
        to.extend(self.sender);
        to.extend(self.identifier);
        to.push(self.tag);
    }
}

impl Record for BulkLine {
    const WIDTH: usize = 64;

    fn read(bytes: &[u8]) -> BulkLine {
        let mut fields = Fields(bytes);
        BulkLine {
            identifier: fields.text(),
            outcome: fields.number(1),
            faults: fields.number(2),
            accepted: fields.number(4),
            accepted_cents: fields.number(8),
            rejected: fields.number(4),
            rejected_cents: fields.number(10),
        }
    }

    fn write(&self, to: &mut Vec<u8>) {
        to.extend(self.identifier);
        to.push(self.outcome);
        to.extend(self.faults.to_be_bytes());
        to.extend(self.accepted.to_be_bytes());
        to.extend(self.accepted_cents.to_be_bytes());
        to.extend(self.rejected.to_be_bytes());
        to.extend(&self.rejected_cents.to_be_bytes()[6..]);
    }
}

impl Record for MessageLine {
    const WIDTH: usize = 38;

    fn read(bytes: &[u8]) -> MessageLine {
        let mut fields = Fields(bytes);
        MessageLine { identifier: fields.text(), outcome: fields.number(1), faults: fields.number(2) }
    }

    fn write(&self, to: &mut Vec<u8>) {
        to.extend(self.identifier);
        to.push(self.outcome);
        to.extend(self.faults.to_be_bytes());
    }
}

/// Takes `width` bytes off the front; none where fewer are left.
pub fn take<'a>(rest: &mut &'a [u8], width: usize) -> Option<&'a [u8]> {
    let (front, back) = rest.split_at_checked(width)?;
    *rest = back;
    Some(front)
}

/// Reads a count and that many records; none where the bytes end early.
pub fn read_section<R: Record>(rest: &mut &[u8]) -> Option<Vec<R>> {
    let count = number(take(rest, COUNT)?);
    (0..count).map(|_| take(rest, R::WIDTH).map(R::read)).collect()
}

/// Writes a count and the records.
pub fn write_section<R: Record>(records: &[R], to: &mut Vec<u8>) {
    to.extend((records.len() as u32).to_be_bytes());
    records.iter().for_each(|record| record.write(to));
}

/// Reads a sheet up to its last section and leaves the bytes after it; none where it ends early.
pub fn read_bulks(rest: &mut &[u8]) -> Option<Vec<Bulk>> {
    let headers = read_section::<Header>(rest)?;
    headers.into_iter().map(|header| Some(Bulk { header, messages: read_section(rest)? })).collect()
}

/// Writes a whole sheet.
pub fn write_bulks(bulks: &[Bulk]) -> Vec<u8> {
    let mut sheet = (bulks.len() as u32).to_be_bytes().to_vec();
    bulks.iter().for_each(|bulk| bulk.header.write(&mut sheet));
    bulks.iter().for_each(|bulk| write_section(&bulk.messages, &mut sheet));
    sheet
}

/// Fills a field: the text, then spaces. The text must not be longer.
pub fn padded<const WIDTH: usize>(text: &[u8]) -> [u8; WIDTH] {
    let mut field = [b' '; WIDTH];
    field[..text.len()].copy_from_slice(text);
    field
}

/// What is left of a field without its trailing spaces.
pub fn trimmed(field: &[u8]) -> &[u8] {
    let length = field.iter().rposition(|byte| *byte != b' ').map_or(0, |last| last + 1);
    &field[..length]
}

//! A second reader of documents, written from the page alone: a text becomes a tree, the tree becomes bulks.

mod cursor;
mod forms;
mod lack;
mod prolog;
mod rows;
mod tags;
mod tree;
mod values;

use crate::records::write_bulks;

/// The numbers a reader answers besides 0.
pub const FORM: u32 = 21;
pub const DEEP: u32 = 22;
pub const LACK: u32 = 23;
pub const SHORT: u32 = 24;

/// No element may stand in so many others, itself counted.
pub const TOO_DEEP: usize = 33;

/// Number 0 with the sheet and its length, or why there is none and at which byte that was met.
#[derive(Clone, Debug, PartialEq, Eq)]
pub struct Answer {
    pub number: u32,
    pub length: u64,
    pub at: u64,
    pub sheet: Vec<u8>,
}

/// Why reading ends early, and where.
#[derive(Debug)]
struct Stop {
    number: u32,
    at: usize,
}

type Read<T> = Result<T, Stop>;

/// Reads a text of documents for a space of so many bytes.
pub fn read(text: &[u8], space: usize) -> Answer {
    match sheet_of(text, space) {
        Ok(sheet) => Answer { number: 0, length: sheet.len() as u64, at: 0, sheet },
        Err(Stop { number, at }) => Answer { number, length: 0, at: at as u64, sheet: Vec::new() },
    }
}

/// An element's name, and the text that stands directly in it.
#[derive(Clone, Debug, PartialEq, Eq)]
pub struct ElementText {
    pub name: Vec<u8>,
    pub text: Vec<u8>,
}

/// All elements in the order of their ends, to be held against another parser's; none where the form is wrong.
pub fn elements(text: &[u8]) -> Option<Vec<ElementText>> {
    let mut elements = Vec::new();
    tree::documents(text).ok()?.into_iter().for_each(|document| document.told(&mut elements));
    Some(elements)
}

fn sheet_of(text: &[u8], space: usize) -> Read<Vec<u8>> {
    let documents = tree::documents(text)?;
    documents.iter().try_for_each(lack::complete)?;
    let bulks: Vec<_> = documents.iter().map(values::bulk).collect();
    let most = u32::MAX as usize;
    let countable = bulks.len() <= most && bulks.iter().all(|bulk| bulk.messages.len() <= most);
    let short = Stop { number: SHORT, at: 0 };
    if !countable {
        return Err(short);
    }
    let sheet = write_bulks(&bulks);
    if sheet.len() <= space {
        Ok(sheet)
    } else {
        Err(short)
    }
}

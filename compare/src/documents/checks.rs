//! What has to hold of every text, whoever reads it.

use super::{Good, Wrong};
use crate::call::Trouble;
use crate::reader::{self, ElementText, SHORT};

/// What a reader answers through C: the sheet itself stands in the space it was lent.
#[derive(Clone, Copy, Debug, PartialEq, Eq)]
pub struct Answer {
    pub number: u32,
    pub length: u64,
    pub at: u64,
}

/// Whoever can be asked to read into a space.
pub trait TextReader {
    fn read(&mut self, text: &[u8], space: &mut [u8]) -> Result<Answer, Trouble>;
}

/// The second reader as one of them.
pub struct Second;

impl TextReader for Second {
    fn read(&mut self, text: &[u8], space: &mut [u8]) -> Result<Answer, Trouble> {
        let reader::Answer { number, length, at, sheet } = reader::read(text, space.len());
        space[..sheet.len()].copy_from_slice(&sheet);
        Ok(Answer { number, length, at })
    }
}

/// Spellings mean their fields, and the space decides between the sheet and no sheet.
pub fn means_its_fields(good: &Good) -> Result<(), Trouble> {
    let Good { text, sheet } = good;
    let whole = reader::Answer { number: 0, length: sheet.len() as u64, at: 0, sheet: sheet.clone() };
    let short = reader::Answer { number: SHORT, length: 0, at: 0, sheet: Vec::new() };
    for (space, wanted) in
        [(sheet.len(), &whole), (usize::MAX, &whole), (sheet.len() - 1, &short), (0, &short)]
    {
        let got = reader::read(text, space);
        if got != *wanted {
            let (got, wanted) = (shown(&got), shown(wanted));
            return Err(format!(
                "in a space of {space} the reader gives\n{got}by the fields it is\n{wanted}"
            ));
        }
    }
    Ok(())
}

fn shown(answer: &reader::Answer) -> String {
    let reader::Answer { number, length, at, sheet } = answer;
    format!("number {number}, length {length}, at {at}\n{}", crate::text::write_sheet(sheet, None))
}

/// One thing wrong is answered with its number and at its place.
pub fn is_met(wrong: &Wrong) -> Result<(), Trouble> {
    let answer = reader::read(&wrong.text, usize::MAX);
    let (got, wanted) = ((answer.number, answer.at), (wrong.number, wrong.at as u64));
    if got == wanted {
        Ok(())
    } else {
        Err(format!("number and place are {got:?}, and should be {wanted:?}"))
    }
}

/// What another parser calls not well formed has no accepted form; and where both read, they read the same texts.
pub fn well_formed(text: &[u8], other: Result<Vec<ElementText>, Trouble>) -> Result<(), Trouble> {
    match (reader::elements(text), other) {
        (None, _) => Ok(()),
        (Some(_), Err(why)) => Err(format!("the form is accepted, though {why}")),
        (Some(ours), Ok(theirs)) => match ours.iter().zip(&theirs).find(|(ours, theirs)| ours != theirs) {
            Some((ours, theirs)) => Err(format!("{} is read, by expat {}", told(ours), told(theirs))),
            None if ours.len() == theirs.len() => Ok(()),
            None => Err(format!("{} elements are read, by expat {}", ours.len(), theirs.len())),
        },
    }
}

fn told(element: &ElementText) -> String {
    format!("{} \"{}\"", element.name.escape_ascii(), element.text.escape_ascii())
}

/// Another reader gives the same answer as the second, and leaves the same bytes in all of the space.
pub fn same_reading(other: &mut impl TextReader, text: &[u8], space: &[u8]) -> Result<u32, Trouble> {
    let (mut theirs, mut ours) = (space.to_vec(), space.to_vec());
    let got = other.read(text, &mut theirs)?;
    let wanted = Second.read(text, &mut ours)?;
    if got != wanted {
        return Err(format!("the answer: {got:?}, by the second reader {wanted:?}"));
    }
    match theirs.iter().zip(&ours).position(|(left, right)| left != right) {
        None => Ok(got.number),
        Some(byte) => {
            Err(format!("byte {byte} of the space: {}, by the second reader {}", theirs[byte], ours[byte]))
        }
    }
}

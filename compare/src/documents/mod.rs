//! Texts of documents for the readers: fields are chosen first, then written in one of their many spellings.

mod aim;
pub mod checks;
mod damage;
mod decoys;
mod element;
mod fields;
mod fill;
mod outline;
pub mod small;
mod soup;
mod spell;
pub mod sweep;
mod wording;

pub use damage::damaged;
pub use soup::text as soup;

use crate::random::Random;
use crate::reader::{LACK, TOO_DEEP};
use crate::records::{write_bulks, Bulk};
use element::Element;
use fill::Filling;
use spell::{Speller, Style};

/// A text that is in order, and the sheet of the fields that it was written from.
pub struct Good {
    pub text: Vec<u8>,
    pub sheet: Vec<u8>,
}

/// A text with one thing wrong, and what has to be answered.
pub struct Wrong {
    pub text: Vec<u8>,
    pub number: u32,
    pub at: usize,
}

fn chosen(random: &mut Random) -> (Vec<Bulk>, Vec<Element>, Style) {
    let large = random.one_in(30);
    let (most_bulks, most_messages) = if large { (12, 8) } else { (3, 2) };
    let bulks = fields::bulks(random, most_bulks, most_messages);
    let filling = Filling(random.pick(&[0, 0, 1, 2, 4, 8]));
    let documents = bulks.iter().map(|bulk| {
        let mut document = fill::document(random, filling, bulk);
        let decoys = random.pick(&[0, 0, 1, 2, 5]);
        decoys::put(random, &mut document, decoys);
        if random.one_in(6) {
            decoys::deepen(random, &mut document, TOO_DEEP - 1);
        }
        document
    });
    let documents = documents.collect();
    let style = if random.one_in(5) { Style::PLAIN } else { Style::any(random) };
    (bulks, documents, style)
}

pub fn good(random: &mut Random) -> Good {
    let (bulks, documents, style) = chosen(random);
    let mut speller = Speller::new(random, style);
    speller.documents(&documents);
    Good { text: speller.out, sheet: write_bulks(&bulks) }
}

/// A short text that is in order, for checks that are made at each of its bytes.
pub fn short(random: &mut Random) -> Vec<u8> {
    let bulk = &fields::bulks(random, 1, 1)[0];
    let document = fill::document(random, Filling(1), bulk);
    let style = Style::any(random);
    let mut speller = Speller::new(random, style);
    speller.documents(&[document]);
    speller.out
}

/// Many documents of many messages each.
pub fn large(random: &mut Random) -> Good {
    let bulks: Vec<Bulk> = (0..40).flat_map(|_| fields::bulks(random, 1, 150)).collect();
    let documents: Vec<_> = bulks.iter().map(|bulk| fill::document(random, Filling(4), bulk)).collect();
    let mut speller = Speller::new(random, Style::PLAIN);
    speller.documents(&documents);
    Good { text: speller.out, sheet: write_bulks(&bulks) }
}

/// None where the damage that was drawn finds no place.
pub fn wrong(random: &mut Random) -> Option<Wrong> {
    let (_, mut documents, style) = chosen(random);
    let index = random.below(documents.len());
    documents.iter_mut().for_each(unwatch);
    let expected = aim::damage(random, &mut documents[index])?;
    // what is missing in another document is met later, unless it comes before something missing
    let first = if expected.number == LACK { index + 1 } else { 0 };
    for (place, other) in documents.iter_mut().enumerate().skip(first) {
        if place != index && random.one_in(4) {
            other.name = "Other".to_string();
        }
    }
    let mut speller = Speller::new(random, style);
    speller.documents(&documents);
    let places = speller.watched.expect("the damage is watched");
    Some(Wrong { text: speller.out, number: expected.number, at: (expected.place)(&places) })
}

/// Deep elements of a good document are watched too, to no end.
fn unwatch(document: &mut Element) {
    for way in document.ways(|element| element.watched) {
        document.at(&way).watched = false;
    }
}

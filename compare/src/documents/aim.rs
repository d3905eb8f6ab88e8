//! Damage whose answer is known beforehand: what is wrong is put into the documents, and the speller says where.

use super::decoys;
use super::element::{Element, Node, Way};
use super::fill::{is_amount, is_figure};
use super::outline::Part;
use super::spell::Places;
use crate::random::Random;
use crate::reader::{DEEP, FORM, LACK, TOO_DEEP};

/// The number to be answered, and how its place follows from those of the watched element.
pub struct Expected {
    pub number: u32,
    pub place: fn(&Places) -> usize,
}

fn expected(number: u32, place: fn(&Places) -> usize) -> Option<Expected> {
    Some(Expected { number, place })
}

/// Damages one document; none where this kind of damage finds no place in it.
pub fn damage(random: &mut Random, document: &mut Element) -> Option<Expected> {
    match random.below(10) {
        0 => drop_needed(random, document),
        1 => double_needed(random, document),
        2 => misname(random, document),
        3 => deepen(random, document),
        4 => other_currency(random, document),
        5 => child_in_field(random, document),
        6 => no_tag_in_field(random, document),
        _ => spoil_text(random, document),
    }
}

fn pick(random: &mut Random, ways: Vec<Way>) -> Option<Way> {
    let place = random.below(ways.len().max(1));
    ways.into_iter().nth(place)
}

/// A needed element that is not the document itself, and the way to its holder.
fn needed(random: &mut Random, document: &Element, holds: impl Fn(&Element) -> bool) -> Option<(Way, usize)> {
    let mut ways = document.ways(|element| element.is_needed() && holds(element));
    ways.retain(|way| !way.is_empty());
    let mut way = pick(random, ways)?;
    let last = way.pop()?;
    Some((way, last))
}

fn is_message(element: &Element) -> bool {
    matches!(element.name.as_str(), "CdtTrfTxInf" | "TxInf")
}

fn drop_needed(random: &mut Random, document: &mut Element) -> Option<Expected> {
    let (way, index) = needed(random, document, |element| !is_message(element))?;
    let holder = document.at(&way);
    holder.content.remove(index);
    holder.watched = true;
    expected(LACK, |places| places.open)
}

fn double_needed(random: &mut Random, document: &mut Element) -> Option<Expected> {
    let (way, index) = needed(random, document, |element| !is_message(element))?;
    let holder = document.at(&way);
    let mut twin = holder.content[index].clone();
    if let Node::Element(twin) = &mut twin {
        match twin.name.as_str() {
            "NbOfTxs" => twin.name = random.pick(&["NbOfTxs", "NbOfTxS"]).to_string(),
            "FIToFICstmrCdtTrf" if random.one_in(2) => *twin = Element::new("PmtRtr", Part::Other),
            _ => (),
        }
    }
    let place = random.below(holder.content.len() + 1);
    holder.content.insert(place, twin);
    holder.watched = true;
    expected(LACK, |places| places.open)
}

/// A document or a needed element under another name.
fn misname(random: &mut Random, document: &mut Element) -> Option<Expected> {
    let other = random.pick(&["Documents", "document", "D", "Other", "ns:Document"]);
    if random.one_in(4) {
        document.name = other.to_string();
        document.watched = true;
        return expected(LACK, |places| places.open);
    }
    let (way, index) = needed(random, document, |element| !is_message(element))?;
    let holder = document.at(&way);
    if let Node::Element(child) = &mut holder.content[index] {
        child.name = other.to_string();
    }
    holder.watched = true;
    expected(LACK, |places| places.open)
}

fn deepen(random: &mut Random, document: &mut Element) -> Option<Expected> {
    decoys::deepen(random, document, TOO_DEEP);
    expected(DEEP, |places| places.open)
}

fn field(random: &mut Random, document: &Element, holds: impl Fn(&str) -> bool) -> Option<Way> {
    let ways = document.ways(|element| matches!(&element.part, Part::Field(word) if holds(word)));
    pick(random, ways)
}

fn other_currency(random: &mut Random, document: &mut Element) -> Option<Expected> {
    let way = field(random, document, is_amount)?;
    let field = document.at(&way);
    let currency = random.pick(&["USD", "", "eur", "EURO", "EU", " EUR", "EUR ", "\u{20AC}"]);
    match random.below(4) {
        0 => field.attributes.clear(),
        1 => field.attributes[0].0 = random.pick(&["ccy", "CCY", "Cc", "Ccyy", "a:Ccy"]).to_string(),
        _ => field.attributes[0].1 = currency.to_string(),
    }
    field.watched = true;
    expected(FORM, |places| places.tag_end)
}

fn watched_child() -> Node {
    let mut child = Element::new("a", Part::Other);
    child.watched = true;
    Node::Element(child)
}

/// The byte behind the `<` is the first that a field does not allow, unless its text is wrong up to there.
fn child_in_field(random: &mut Random, document: &mut Element) -> Option<Expected> {
    let way = field(random, document, |_| true)?;
    let field = document.at(&way);
    let place = random.below(field.content.len() + 1);
    field.content.insert(place, watched_child());
    match &field.part {
        Part::Field(word) if place == 0 && is_figure(word) => expected(FORM, |places| places.open),
        _ => expected(FORM, |places| places.open + 1),
    }
}

/// A sign that begins nothing, by its second byte, behind a text that its field can take.
fn no_tag_in_field(random: &mut Random, document: &mut Element) -> Option<Expected> {
    let way = field(random, document, |_| true)?;
    let field = document.at(&way);
    field.content.push(no_tag(random));
    field.watched = true;
    expected(FORM, |places| places.text_end - 1)
}

fn no_tag(random: &mut Random) -> Node {
    Node::Raw(random.pick(&[b"<!", b"<?", b"< ", b"<1", b"<&", b"<>", b"<\xC3"]).to_vec())
}

/// A text that its field cannot take; it is wrong where it ends, whatever stands there.
fn spoil_text(random: &mut Random, document: &mut Element) -> Option<Expected> {
    let way = field(random, document, |word| !matches!(word, "clearing" | "system"))?;
    let field = document.at(&way);
    let Part::Field(word) = field.part.clone() else { return None };
    let [Node::Text(text)] = &mut field.content[..] else { return None };
    match word.as_str() {
        "number" => spoil(random, text, &["", "1234567890123456", "-1", "1.0", "0x10", " 1", "1 ", "1\n"]),
        "date" => spoil(
            random,
            text,
            &["", "20260615", "2026-06-1", "2026-6-155", "2026-06-15Z", "26-06-15", "2026-06/15"],
        ),
        amount if is_amount(amount) => {
            let wrong =
                ["", ".", "1.234", "1,00", "1.2.3", "-1", "184467440737095517", "0000000000000000000", "1 "];
            spoil(random, text, &wrong);
        }
        _ => {
            let width = width(&word, &field.name);
            let letter = random.pick(&["X", "X", " ", "\u{E4}"]);
            while text.len() <= width {
                text.push_str(letter);
            }
        }
    }
    match random.below(4) {
        0 => {
            field.content.push(watched_child());
            expected(FORM, |places| places.open)
        }
        1 => {
            field.content.push(no_tag(random));
            field.watched = true;
            expected(FORM, |places| places.text_end - 2)
        }
        _ => {
            field.watched = true;
            expected(FORM, |places| places.text_end)
        }
    }
}

fn spoil(random: &mut Random, text: &mut String, wrong: &[&str]) {
    *text = random.pick(wrong).to_string();
}

fn width(word: &str, name: &str) -> usize {
    match word {
        "identifier" => 35,
        "sender" => 8,
        "receiver" => 11,
        "reason" => 4,
        "name" => 15,
        _ => unreachable!("{name} holds no text"),
    }
}

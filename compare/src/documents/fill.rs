//! From bulks to documents: the outline's elements, with the fields' texts in them.

use super::element::{Element, Node};
use super::outline::{of_kind, Item, Part};
use super::wording;
use crate::random::Random;
use crate::records::{Bulk, Header, Message};

/// How many of the elements that may be left out are there: so many of eight.
#[derive(Clone, Copy)]
pub struct Filling(pub usize);

/// The text of a field by its word in the outline.
type Texts<'a> = dyn Fn(&mut Random, &str) -> String + 'a;

pub fn document(random: &mut Random, filling: Filling, bulk: &Bulk) -> Element {
    let outline = of_kind(bulk.header.kind);
    let mut header = group(random, filling, "GrpHdr", &outline.header_inside, &header_texts(&bulk.header));
    header.reserved.extend(["NbOfTxS".to_string(), "InstdAgt".to_string()]);
    let recipients = if bulk.header.marks & 4 != 0 { random.pick(&[1, 1, 2, 3]) } else { 0 };
    for _ in 0..recipients {
        let recipient = recipient(random);
        put_in(random, &mut header, Node::Element(recipient));
    }
    let messages = bulk.messages.iter().map(|message| {
        group(random, filling, outline.message, &outline.message_inside, &message_texts(message))
    });
    let messages: Vec<Element> = messages.collect();

    let mut body = Element::new(outline.body, Part::Needed);
    body.reserved = vec!["GrpHdr".to_string(), outline.message.to_string()];
    body.content = messages.into_iter().map(Node::Element).collect();
    let place = if random.one_in(4) { random.below(body.content.len() + 1) } else { 0 };
    body.content.insert(place, Node::Element(header));

    let mut document = Element::new("Document", Part::Needed);
    document.reserved = vec!["FIToFICstmrCdtTrf".to_string(), "PmtRtr".to_string()];
    document.content.push(Node::Element(body));
    document
}

/// Its inside is nobody's matter, so it need not be as the outline has it.
fn recipient(random: &mut Random) -> Element {
    let mut recipient = Element::new("InstdAgt", Part::Other);
    if random.one_in(2) {
        let mut inner = Element::new("FinInstnId", Part::Other);
        inner.content.push(Node::Element(Element::new("BICFI", Part::Other).holding(wording::other(random))));
        recipient.content.push(Node::Element(inner));
    }
    recipient
}

fn header_texts(header: &Header) -> impl Fn(&mut Random, &str) -> String + '_ {
    move |random, word| match word {
        "identifier" => wording::text(random, &header.identifier),
        "sender" => wording::text(random, &header.sender),
        "number" => wording::number(random, header.number),
        "sum" => wording::amount(random, header.sum),
        "date" => wording::date(header.date),
        "clearing" => wording::mark(random, "CLRG", header.marks & 1 != 0),
        "system" => wording::mark(random, "EKS", header.marks & 2 != 0),
        other => unreachable!("no field of a header: {other}"),
    }
}

fn message_texts(message: &Message) -> impl Fn(&mut Random, &str) -> String + '_ {
    move |random, word| match word {
        "identifier" => wording::text(random, &message.identifier),
        "receiver" => wording::receiver(random, &message.receiver),
        "amount" => wording::amount(random, message.amount),
        "original" => wording::amount(random, message.original),
        "reason" => wording::text(random, &message.reason),
        "name" => wording::text(random, &message.name),
        other => unreachable!("no field of a message: {other}"),
    }
}

pub fn is_amount(word: &str) -> bool {
    matches!(word, "sum" | "amount" | "original")
}

/// Whether the field cannot be empty.
pub fn is_figure(word: &str) -> bool {
    is_amount(word) || matches!(word, "number" | "date")
}

/// A needed group; its children may stand in any order.
fn group(random: &mut Random, filling: Filling, name: &str, inside: &[Vec<Item>], texts: &Texts) -> Element {
    let mut group = Element::new(name, Part::Needed);
    fill(random, filling, &mut group, inside, texts);
    group
}

fn fill(random: &mut Random, filling: Filling, group: &mut Element, inside: &[Vec<Item>], texts: &Texts) {
    let shuffled = random.one_in(4);
    for choice in inside {
        let Item { name, part, inside } = &choice[random.below(choice.len())];
        let mut child = Element::new(name, part.clone());
        match part {
            Part::Field(word) => {
                if name == "NbOfTxs" && random.one_in(2) {
                    child.name = "NbOfTxS".to_string();
                }
                if is_amount(word) {
                    child.attributes.push(("Ccy".to_string(), "EUR".to_string()));
                }
                child = child.holding(texts(random, word));
            }
            Part::Other if random.below(8) >= filling.0 => continue,
            Part::Other if inside.is_empty() => child = child.holding(wording::other(random)),
            _ => fill(random, filling, &mut child, inside, texts),
        }
        if *part != Part::Other {
            group.reserved.push(name.clone());
        }
        if shuffled {
            put_in(random, group, Node::Element(child));
        } else {
            group.content.push(Node::Element(child));
        }
    }
}

/// Puts a child somewhere among the others.
pub fn put_in(random: &mut Random, group: &mut Element, child: Node) {
    let place = random.below(group.content.len() + 1);
    group.content.insert(place, child);
}

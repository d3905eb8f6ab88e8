//! Elements that mean nothing where they stand, though their names mean something elsewhere; and deep ones.

use super::element::{Element, Node};
use super::fill::put_in;
use super::outline::Part;
use super::wording;
use crate::random::Random;

const NAMES: [&str; 36] = [
    "Document",
    "FIToFICstmrCdtTrf",
    "PmtRtr",
    "GrpHdr",
    "MsgId",
    "NbOfTxS",
    "NbOfTxs",
    "TtlIntrBkSttlmAmt",
    "TtlRtrdIntrBkSttlmAmt",
    "IntrBkSttlmDt",
    "SttlmInf",
    "SttlmMtd",
    "ClrSys",
    "Prtry",
    "Cd",
    "InstgAgt",
    "InstdAgt",
    "FinInstnId",
    "BICFI",
    "CdtTrfTxInf",
    "TxInf",
    "PmtId",
    "TxId",
    "RtrId",
    "CdtrAgt",
    "IntrBkSttlmAmt",
    "RtrdIntrBkSttlmAmt",
    "OrgnlIntrBkSttlmAmt",
    "OrgnlTxRef",
    "OrgnlGrpInf",
    "OrgnlMsgNmId",
    "RtrRsnInf",
    "Rsn",
    "Id",
    "_:x-1.2",
    "document",
];

/// Puts so many elements at places where nothing is asked of them.
pub fn put(random: &mut Random, document: &mut Element, count: usize) {
    for _ in 0..count {
        let ways = document.ways(|element| !element.is_field());
        let group = document.at(&ways[random.below(ways.len())]);
        let names: Vec<&str> = NAMES.into_iter().filter(|name| !is_reserved(group, name)).collect();
        let decoy = decoy(random, &names, 0);
        put_in(random, group, Node::Element(decoy));
    }
}

fn is_reserved(group: &Element, name: &str) -> bool {
    group.reserved.iter().any(|reserved| reserved == name)
}

fn decoy(random: &mut Random, names: &[&str], level: usize) -> Element {
    let mut decoy = Element::new(random.pick(names), Part::Other);
    for _ in 0..random.below(3) {
        if level < 3 && random.one_in(2) {
            decoy.content.push(Node::Element(self::decoy(random, &NAMES, level + 1)));
        } else {
            decoy.content.push(Node::Text(wording::other(random)));
        }
    }
    decoy
}

/// Puts elements one in the other so that the innermost stands at the level, and has it watched.
pub fn deepen(random: &mut Random, document: &mut Element, level: usize) {
    let ways = document.ways(|element| !element.is_field());
    let way = &ways[random.below(ways.len())];
    let group = document.at(way);
    // the group itself is at one level more than its way has steps
    let count = (level - 1).saturating_sub(way.len());
    let names: Vec<&str> = NAMES.into_iter().filter(|name| !is_reserved(group, name)).collect();
    let mut chain: Option<Element> = None;
    for step in (0..count).rev() {
        let mut outer =
            Element::new(if step == 0 { random.pick(&names) } else { random.pick(&NAMES) }, Part::Other);
        match chain {
            Some(inner) => outer.content.push(Node::Element(inner)),
            None => outer.watched = true,
        }
        chain = Some(outer);
    }
    if let Some(chain) = chain {
        put_in(random, group, Node::Element(chain));
    }
}

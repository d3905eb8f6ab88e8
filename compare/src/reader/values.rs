//! A document that lacks nothing becomes a bulk.

use super::forms::{cents, date, number, receiver};
use super::rows::PAYMENTS;
use super::tree::Element;
use crate::records::{padded, Bulk, Header, Message};

const CLEARING: u8 = 1;
const SYSTEM: u8 = 2;
const RECIPIENT: u8 = 4;

/// The text at a path of steps that are all there.
fn text<'a>(element: &'a Element, path: &'static str) -> &'a [u8] {
    let step =
        |element: &'a Element, step| element.children_of(step).next().expect("nothing needed is missing");
    &path.split('/').fold(element, step).text
}

fn amount(element: &Element, path: &'static str) -> u64 {
    cents(text(element, path)).expect("an amount was read as one")
}

pub fn bulk(document: &Element) -> Bulk {
    let body = document.children_of("FIToFICstmrCdtTrf|PmtRtr").next().expect("one of the two is there");
    if body.name == PAYMENTS {
        let messages = body.children_of("CdtTrfTxInf").map(payment).collect();
        Bulk { header: header(body, 1, "GrpHdr/TtlIntrBkSttlmAmt"), messages }
    } else {
        let messages = body.children_of("TxInf").map(returned).collect();
        Bulk { header: header(body, 3, "GrpHdr/TtlRtrdIntrBkSttlmAmt"), messages }
    }
}

fn header(body: &Element, kind: u8, sum: &'static str) -> Header {
    let group = body.children_of("GrpHdr").next().expect("the header is there");
    let mark = |holds, mark| if holds { mark } else { 0 };
    let marks = mark(text(group, "SttlmInf/SttlmMtd") == b"CLRG", CLEARING)
        | mark(text(group, "SttlmInf/ClrSys/Prtry") == b"EKS", SYSTEM)
        | mark(group.children_of("InstdAgt").next().is_some(), RECIPIENT);
    Header {
        kind,
        identifier: padded(text(group, "MsgId")),
        sender: padded(text(group, "InstgAgt/FinInstnId/BICFI")),
        number: number(text(group, "NbOfTxS|NbOfTxs")).expect("a number was read as one"),
        sum: amount(body, sum),
        date: date(text(group, "IntrBkSttlmDt")).expect("a date was read as one"),
        marks,
    }
}

fn payment(element: &Element) -> Message {
    Message {
        identifier: padded(text(element, "PmtId/TxId")),
        receiver: receiver(text(element, "CdtrAgt/FinInstnId/BICFI")),
        amount: amount(element, "IntrBkSttlmAmt"),
        original: 0,
        reason: padded(b""),
        name: padded(b""),
    }
}

fn returned(element: &Element) -> Message {
    Message {
        identifier: padded(text(element, "RtrId")),
        receiver: receiver(text(element, "OrgnlTxRef/CdtrAgt/FinInstnId/BICFI")),
        amount: amount(element, "RtrdIntrBkSttlmAmt"),
        original: amount(element, "OrgnlIntrBkSttlmAmt"),
        reason: padded(text(element, "RtrRsnInf/Rsn/Cd")),
        name: padded(text(element, "OrgnlGrpInf/OrgnlMsgNmId")),
    }
}

//! The needed elements, row by row as the page has them.

use super::forms::Form;

/// What a row's last element is.
#[derive(Clone, Copy, Debug, PartialEq, Eq)]
pub enum Role {
    /// Its text goes to the sheet.
    Field(Form),
    /// It may be missing or stand any number of times.
    Free,
}

use Form::{Amount, Any, Date, Number, Receiver, Text};
use Role::{Field, Free};

/// Steps from a document on; a step with two names may be written either way.
pub type Row = (&'static str, Role);

pub const PAYMENTS: &[u8] = b"FIToFICstmrCdtTrf";
pub const RETURNS: &[u8] = b"PmtRtr";

pub const PAYMENT_ROWS: [Row; 12] = [
    ("GrpHdr/MsgId", Field(Text(35))),
    ("GrpHdr/NbOfTxS|NbOfTxs", Field(Number)),
    ("GrpHdr/TtlIntrBkSttlmAmt", Field(Amount)),
    ("GrpHdr/IntrBkSttlmDt", Field(Date)),
    ("GrpHdr/SttlmInf/SttlmMtd", Field(Any)),
    ("GrpHdr/SttlmInf/ClrSys/Prtry", Field(Any)),
    ("GrpHdr/InstgAgt/FinInstnId/BICFI", Field(Text(8))),
    ("GrpHdr/InstdAgt", Free),
    ("CdtTrfTxInf", Free),
    ("CdtTrfTxInf/PmtId/TxId", Field(Text(35))),
    ("CdtTrfTxInf/CdtrAgt/FinInstnId/BICFI", Field(Receiver)),
    ("CdtTrfTxInf/IntrBkSttlmAmt", Field(Amount)),
];

pub const RETURN_ROWS: [Row; 15] = [
    ("GrpHdr/MsgId", Field(Text(35))),
    ("GrpHdr/NbOfTxS|NbOfTxs", Field(Number)),
    ("GrpHdr/TtlRtrdIntrBkSttlmAmt", Field(Amount)),
    ("GrpHdr/IntrBkSttlmDt", Field(Date)),
    ("GrpHdr/SttlmInf/SttlmMtd", Field(Any)),
    ("GrpHdr/SttlmInf/ClrSys/Prtry", Field(Any)),
    ("GrpHdr/InstgAgt/FinInstnId/BICFI", Field(Text(8))),
    ("GrpHdr/InstdAgt", Free),
    ("TxInf", Free),
    ("TxInf/RtrId", Field(Text(35))),
    ("TxInf/OrgnlTxRef/CdtrAgt/FinInstnId/BICFI", Field(Receiver)),
    ("TxInf/RtrdIntrBkSttlmAmt", Field(Amount)),
    ("TxInf/OrgnlIntrBkSttlmAmt", Field(Amount)),
    ("TxInf/RtrRsnInf/Rsn/Cd", Field(Text(4))),
    ("TxInf/OrgnlGrpInf/OrgnlMsgNmId", Field(Text(15))),
];

/// The rows of documents whose second element has this name.
pub fn rows_of(name: &[u8]) -> &'static [Row] {
    match name {
        PAYMENTS => &PAYMENT_ROWS,
        RETURNS => &RETURN_ROWS,
        _ => &[],
    }
}

/// Whether an element of this name is meant by a step.
pub fn meant(step: &str, name: &[u8]) -> bool {
    step.split('|').any(|one| one.as_bytes() == name)
}

/// The form of the text at a path of names, document first; none where the sheet takes no text.
pub fn form_at(path: &[&[u8]]) -> Option<Form> {
    let [document, second, inner @ ..] = path else { return None };
    if *document != b"Document" {
        return None;
    }
    rows_of(second).iter().find_map(|(steps, role)| match role {
        Field(form) if leads_to(steps, inner) => Some(*form),
        _ => None,
    })
}

fn leads_to(steps: &str, path: &[&[u8]]) -> bool {
    let mut names = path.iter();
    steps.split('/').all(|step| names.next().is_some_and(|name| meant(step, name))) && names.next().is_none()
}

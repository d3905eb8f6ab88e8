//! The elements of the two kinds of document, in a notation of one line each.
//!
//! `A` may be left out, `A(..)` holds others, `A!(..)` is needed on the way to a field, `A=word` is the field that
//! the word names, `A|B` is one of the two. `$WORD` stands for a part that several elements share.

use std::sync::OnceLock;

#[derive(Clone, Debug, PartialEq, Eq)]
pub enum Part {
    Other,
    Needed,
    Field(String),
}

#[derive(Clone, Debug)]
pub struct Item {
    pub name: String,
    pub part: Part,
    /// What it holds: of each list one is taken.
    pub inside: Vec<Vec<Item>>,
}

const SHARED: [(&str, &str); 10] = [
    ("$ADDRESS", "Dept SubDept StrtNm BldgNb BldgNm Flr PstBx Room PstCd TwnNm TwnLctnNm DstrctNm CtrySubDvsn Ctry AdrLine AdrLine"),
    ("$SCHEME", "SchmeNm(Cd|Prtry) Issr"),
    ("$ORGANISATION", "AnyBIC LEI Othr(Id $SCHEME)"),
    ("$PERSON", "DtAndPlcOfBirth(BirthDt PrvcOfBirth CityOfBirth CtryOfBirth)|Othr(Id $SCHEME)"),
    ("$IDENTITY", "Id(OrgId($ORGANISATION)|PrvtId($PERSON))"),
    ("$PARTY", "Nm PstlAdr($ADDRESS) $IDENTITY"),
    ("$ACCOUNT", "Id(IBAN) Prxy(Tp(Cd|Prtry) Id)"),
    ("$AGENT", "FinInstnId(BICFI)"),
    ("$TYPE", "SvcLvl(Cd) LclInstrm(Cd|Prtry) CtgyPurp(Cd|Prtry)"),
    ("$REMITTANCE", "Ustrd|Strd(CdtrRefInf(Tp(CdOrPrtry(Cd) Issr) Ref))"),
];

const PAYMENT_HEADER: &str =
    "MsgId=identifier CreDtTm NbOfTxs=number TtlIntrBkSttlmAmt=sum IntrBkSttlmDt=date
    SttlmInf!(SttlmMtd=clearing ClrSys!(Prtry=system)) InstgAgt!(FinInstnId!(BICFI=sender))";

const RETURN_HEADER: &str =
    "MsgId=identifier CreDtTm NbOfTxs=number TtlRtrdIntrBkSttlmAmt=sum IntrBkSttlmDt=date
    SttlmInf!(SttlmMtd=clearing ClrSys!(Prtry=system)) InstgAgt!(FinInstnId!(BICFI=sender))";

const PAYMENT: &str =
    "PmtId!(InstrId EndToEndId TxId=identifier) PmtTpInf($TYPE) IntrBkSttlmAmt=amount ChrgBr
    InstgAgt($AGENT) UltmtDbtr(Nm $IDENTITY) Dbtr($PARTY) DbtrAcct($ACCOUNT) DbtrAgt($AGENT)
    CdtrAgt!(FinInstnId!(BICFI=receiver)) Cdtr($PARTY) CdtrAcct($ACCOUNT) UltmtCdtr(Nm $IDENTITY) Purp(Cd)
    RmtInf($REMITTANCE)";

const RETURN: &str = "RtrId=identifier OrgnlGrpInf!(OrgnlMsgId OrgnlMsgNmId=name) OrgnlInstrId OrgnlEndToEndId
    OrgnlTxId OrgnlIntrBkSttlmAmt=original RtrdIntrBkSttlmAmt=amount RtrdInstdAmt ChrgBr ChrgsInf(Amt Agt($AGENT))
    InstgAgt($AGENT) RtrRsnInf!(Orgtr(Nm|Id(OrgId(AnyBIC))) Rsn!(Cd=reason) AddtlInf)
    OrgnlTxRef!(IntrBkSttlmDt SttlmInf(SttlmMtd ClrSys(Prtry)) PmtTpInf($TYPE) RmtInf($REMITTANCE)
        UltmtDbtr(Pty(Nm $IDENTITY)) Dbtr(Pty($PARTY)) DbtrAcct($ACCOUNT) DbtrAgt($AGENT)
        CdtrAgt!(FinInstnId!(BICFI=receiver)) Cdtr(Pty($PARTY)) CdtrAcct($ACCOUNT) UltmtCdtr(Pty(Nm $IDENTITY))
        Purp(Cd))";

/// The outlines of one kind of document.
pub struct Outline {
    pub body: &'static str,
    pub message: &'static str,
    pub header_inside: Vec<Vec<Item>>,
    pub message_inside: Vec<Vec<Item>>,
}

pub fn of_kind(kind: u8) -> &'static Outline {
    static PAYMENTS: OnceLock<Outline> = OnceLock::new();
    static RETURNS: OnceLock<Outline> = OnceLock::new();
    if kind == 1 {
        PAYMENTS.get_or_init(|| Outline {
            body: "FIToFICstmrCdtTrf",
            message: "CdtTrfTxInf",
            header_inside: parsed(PAYMENT_HEADER),
            message_inside: parsed(PAYMENT),
        })
    } else {
        RETURNS.get_or_init(|| Outline {
            body: "PmtRtr",
            message: "TxInf",
            header_inside: parsed(RETURN_HEADER),
            message_inside: parsed(RETURN),
        })
    }
}

fn parsed(notation: &str) -> Vec<Vec<Item>> {
    let mut text = notation.to_string();
    while text.contains('$') {
        SHARED.iter().for_each(|(word, part)| text = text.replace(word, part));
    }
    let mut rest = text.as_str();
    let items = items(&mut rest);
    assert!(rest.is_empty(), "the notation ends early: {rest}");
    items
}

/// Items up to a closing bracket or the end.
fn items(rest: &mut &str) -> Vec<Vec<Item>> {
    let mut all = Vec::new();
    loop {
        *rest = rest.trim_start();
        if rest.is_empty() || rest.starts_with(')') {
            return all;
        }
        let mut choice = vec![item(rest)];
        while taken(rest, '|') {
            choice.push(item(rest));
        }
        all.push(choice);
    }
}

fn item(rest: &mut &str) -> Item {
    let name = word(rest);
    let part = if taken(rest, '=') {
        Part::Field(word(rest))
    } else if taken(rest, '!') {
        Part::Needed
    } else {
        Part::Other
    };
    let mut inside = Vec::new();
    if taken(rest, '(') {
        inside = items(rest);
        assert!(taken(rest, ')'), "a bracket is not closed: {rest}");
    }
    Item { name, part, inside }
}

fn taken(rest: &mut &str, sign: char) -> bool {
    rest.strip_prefix(sign).map(|after| *rest = after).is_some()
}

fn word(rest: &mut &str) -> String {
    let end = rest.find(|letter: char| !letter.is_ascii_alphanumeric()).unwrap_or(rest.len());
    let (word, after) = rest.split_at(end);
    *rest = after;
    word.to_string()
}

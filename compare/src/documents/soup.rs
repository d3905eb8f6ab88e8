//! Small documents with one place where pieces of markup stand in any order: most are wrong, each in its own way.

use super::element::{Element, Node};
use super::fill::{self, put_in, Filling};
use super::spell::{Speller, Style};
use super::{fields, unwatch};
use crate::random::Random;

const PROLOG: [&str; 39] = [
    "<?xml",
    "<?xml",
    "<?xml ",
    "<?",
    "<?XML",
    " ",
    " ",
    "\n",
    "\t",
    "version",
    "encoding",
    "standalone",
    "=",
    "'",
    "\"",
    "1.0",
    "1.",
    "2.0",
    "UTF-8",
    "yes",
    "version='1.0'",
    " version=\"1.0\"",
    " version = '1.'",
    " version='1.0a'",
    " version='2.0'",
    " version='1.0\"",
    " encoding='UTF-8'",
    " encoding=\"Utf-8\"",
    " encoding='UTF-16'",
    " encoding=''",
    " standalone='yes'",
    " standalone=\"no\"",
    " standalone='maybe'",
    " standalone='YES'",
    "?>",
    "?",
    ">",
    "\u{FEFF}",
    "\u{C}",
];

const TAG: [&str; 29] = [
    " ",
    " ",
    "\n",
    "\r",
    "\t",
    "a",
    "b",
    "Ccy",
    "=",
    "\"",
    "'",
    "EUR",
    " a='1'",
    " a=\"2\"",
    " b='&#69;'",
    " b=''",
    " c = '>'",
    " c='<'",
    " Ccy='EUR'",
    " Ccy=\"&#69;UR\"",
    " Ccy='USD'",
    "&",
    "/",
    "1",
    ":",
    "-",
    "\u{C}",
    "\u{B}",
    "\u{A0}",
];

const CONTENT: [&[u8]; 45] = [
    b"a",
    b"]",
    b"]",
    b"]]",
    b">",
    b"]]>",
    b"<![CDATA[",
    b"<![CDATA[",
    b"<![CDATA[]]>",
    b"<![CDATA[]]]>",
    b"<![CDATA",
    b"<!",
    b"<",
    b"/",
    b"<b>",
    b"</b>",
    b"<b/>",
    b"<b />",
    b"</b >",
    b"<?",
    b"&amp;",
    b"&lt;",
    b"&apos;",
    b"&quot;",
    b"&gt;",
    b"&",
    b"&#",
    b"&#x",
    b"65",
    b"4A",
    b";",
    b"&#;",
    b"&#x;",
    b"&#65;",
    b"&#x41;",
    b"&#X41;",
    b"&#13;",
    b"&#xd;",
    b"\r",
    b"\n",
    b"\r\n",
    b" ",
    "\u{E4}".as_bytes(),
    b"\xC3",
    b"\xE2\x82",
];

/// Signs from which near misses of numbers, amounts and dates are made.
const FIGURES: &[u8] = b"00123456789..--";

pub fn text(random: &mut Random) -> Vec<u8> {
    if random.one_in(5) {
        return prolog(random);
    }
    let bulk = &fields::bulks(random, 1, 2)[0];
    let mut document = fill::document(random, Filling(0), bulk);
    unwatch(&mut document);
    match random.below(4) {
        0 => {
            let soup = Node::Raw(pieces(random, &CONTENT));
            let group = somewhere(random, &mut document, |element| !element.is_field());
            put_in(random, group, soup);
        }
        1 => {
            let content = pieces(random, &CONTENT);
            somewhere(random, &mut document, Element::is_field).content = vec![Node::Raw(content)];
        }
        2 => {
            let figures = (0..random.below(21)).map(|_| random.pick(FIGURES)).collect();
            somewhere(random, &mut document, Element::is_field).content = vec![Node::Raw(figures)];
        }
        _ => {
            let end = pieces(random, &TAG.map(str::as_bytes));
            let element = somewhere(random, &mut document, |element| !element.attributes.is_empty());
            if random.one_in(2) {
                element.attributes.clear();
            }
            element.tag_end = end;
        }
    }
    let style = if random.one_in(2) { Style::PLAIN } else { Style::any(random) };
    let mut speller = Speller::new(random, style);
    speller.documents(&[document]);
    speller.out
}

fn somewhere<'a>(
    random: &mut Random,
    document: &'a mut Element,
    holds: impl Fn(&Element) -> bool,
) -> &'a mut Element {
    let ways = document.ways(holds);
    document.at(&ways[random.below(ways.len())])
}

fn pieces(random: &mut Random, from: &[&[u8]]) -> Vec<u8> {
    (0..1 + random.below(7)).flat_map(|_| random.pick(from).to_vec()).collect()
}

/// How a declaration begins: most often rightly, also with another version or none.
const DECLARED: [&str; 10] = [
    "<?xml version='1.0'",
    "<?xml version='1.0'",
    "<?xml version='1.0'",
    "<?xml version='1.0'",
    "<?xml version='2.0'",
    "<?xml version='1.'",
    "<?xml version='1.0a'",
    "<?xml encoding='UTF-8'",
    "<?xml standalone='yes'",
    "<?xml ?>",
];

/// A declaration before a document that lacks everything, which shows that it was reached.
fn prolog(random: &mut Random) -> Vec<u8> {
    let mut text = Vec::new();
    if random.one_in(3) {
        text.extend(random.pick(&[&b"\xEF\xBB\xBF"[..], b"\xEF\xBB\xBF", b"\xEF\xBB", b"\xEF", b"\xBB\xBF"]));
    }
    if random.one_in(8) {
        text.extend(random.pick(&[&b" "[..], b"\n", b"\t\r\n"]));
    }
    if !random.one_in(4) {
        text.extend(random.pick(&DECLARED).as_bytes());
    }
    text.extend(pieces(random, &PROLOG.map(str::as_bytes)));
    if random.one_in(2) {
        text.extend(b"?>");
    }
    text.extend(random.pick(&[&b"<Document/>"[..], b"<Document></Document>", b""]));
    text
}

//! Documents become bytes, in one of the many spellings that mean the same.

use super::element::{Element, Node};
use super::wording;
use crate::random::Random;

const ENTITIES: [(char, &str); 5] = [('<', "lt"), ('>', "gt"), ('&', "amp"), ('\'', "apos"), ('"', "quot")];
const SPACES: [&str; 8] = [" ", " ", "\n", "\t", "\r\n", "\r", "  ", " \n\t "];
const ATTRIBUTES: [&str; 8] = ["xmlns", "xmlns:xsi", "xsi:schemaLocation", "a", "Ccy", "_x.1-", ":", "ccy"];
const VALUES: [&str; 7] =
    ["", "urn:iso:std:iso:20022:tech:xsd:pacs.008.001.08", "USD", "a b", "\"'", "<&>]]>", "\u{E4}\u{10400}"];

/// How far from plain a text is spelt: of each thing one in so many, where 0 is never.
#[derive(Clone, Copy)]
pub struct Style {
    spaces: usize,
    references: usize,
    sections: usize,
    attributes: usize,
    mixed: usize,
}

impl Style {
    pub const PLAIN: Style = Style { spaces: 0, references: 0, sections: 0, attributes: 0, mixed: 0 };

    pub fn any(random: &mut Random) -> Style {
        let mut odds = || random.pick(&[0, 0, 40, 8, 2]);
        Style { spaces: odds(), references: odds(), sections: odds(), attributes: odds(), mixed: odds() }
    }
}

/// Where the watched element was written.
#[derive(Clone, Copy, Debug, Default)]
pub struct Places {
    /// Its `<`.
    pub open: usize,
    /// The end of its tag: `>`, or the `/` before it.
    pub tag_end: usize,
    /// The `<` of its end tag; of an empty tag the `/`.
    pub text_end: usize,
}

pub struct Speller<'a> {
    pub random: &'a mut Random,
    pub style: Style,
    pub out: Vec<u8>,
    pub watched: Option<Places>,
}

impl Speller<'_> {
    pub fn new(random: &mut Random, style: Style) -> Speller<'_> {
        Speller { random, style, out: Vec::new(), watched: None }
    }

    fn chance(&mut self, odds: usize) -> bool {
        odds > 0 && self.random.one_in(odds)
    }

    fn put(&mut self, text: &str) {
        self.out.extend(text.as_bytes());
    }

    /// Spaces where there may be some.
    fn may_space(&mut self) {
        if self.chance(self.style.spaces) {
            self.space();
        }
    }

    /// Spaces where there must be some.
    fn space(&mut self) {
        let spaces = if self.style.spaces > 0 { self.random.pick(&SPACES) } else { " " };
        self.put(spaces);
    }

    pub fn documents(&mut self, documents: &[Element]) {
        if self.random.one_in(4) {
            self.put("\u{FEFF}");
        }
        if self.random.one_in(2) {
            self.declaration();
        }
        self.may_space();
        for document in documents {
            self.element(document);
            self.may_space();
        }
    }

    fn declaration(&mut self) {
        let version = self.random.pick(&["1.0", "1.0", "1.0", "1.1", "1.123"]);
        self.put("<?xml");
        self.setting("version", version);
        if !self.random.one_in(3) {
            let encoding = self.random.pick(&["UTF-8", "UTF-8", "utf-8", "Utf-8"]);
            self.setting("encoding", encoding);
        }
        if self.random.one_in(3) {
            let standalone = self.random.pick(&["yes", "no"]);
            self.setting("standalone", standalone);
        }
        self.may_space();
        self.put("?>");
    }

    fn setting(&mut self, name: &str, value: &str) {
        let quote = self.random.pick(&["\"", "'"]);
        self.space();
        self.put(name);
        self.equals();
        self.put(&format!("{quote}{value}{quote}"));
    }

    fn equals(&mut self) {
        self.may_space();
        self.put("=");
        self.may_space();
    }

    fn element(&mut self, element: &Element) {
        let mut places = Places { open: self.out.len(), ..Places::default() };
        self.put("<");
        self.put(&element.name);
        for (name, value) in self.attributes(element) {
            self.space();
            self.put(&name);
            self.equals();
            self.value(&value);
        }
        self.out.extend(&element.tag_end);
        self.may_space();
        places.tag_end = self.out.len();
        let empty = element.content.iter().all(|node| matches!(node, Node::Text(text) if text.is_empty()));
        if empty && self.random.one_in(2) {
            places.text_end = self.out.len();
            self.put("/>");
        } else {
            self.put(">");
            self.content(element);
            places.text_end = self.out.len();
            self.put("</");
            self.put(&element.name);
            self.may_space();
            self.put(">");
        }
        if element.watched {
            self.watched = Some(places);
        }
    }

    /// The element's own attributes and some of no meaning, in any order.
    fn attributes(&mut self, element: &Element) -> Vec<(String, String)> {
        let mut attributes = element.attributes.clone();
        while self.chance(self.style.attributes) && attributes.len() < ATTRIBUTES.len() {
            let (name, value) = (self.random.pick(&ATTRIBUTES), self.random.pick(&VALUES));
            // an amount without a currency is one on purpose
            let field = element.is_field() && name == "Ccy";
            if !field && attributes.iter().all(|(known, _)| known != name) {
                let place = self.random.below(attributes.len() + 1);
                attributes.insert(place, (name.to_string(), value.to_string()));
            }
        }
        attributes
    }

    fn value(&mut self, value: &str) {
        let quote = self.random.pick(&['"', '\'']);
        self.put(&quote.to_string());
        for letter in value.chars() {
            let must = matches!(letter, '<' | '&') || letter == quote;
            if must || self.chance(self.style.references) {
                self.reference(letter);
            } else {
                self.put(&letter.to_string());
            }
        }
        self.put(&quote.to_string());
    }

    fn content(&mut self, element: &Element) {
        for node in &element.content {
            if !element.is_field() {
                self.between();
            }
            match node {
                Node::Element(child) => self.element(child),
                Node::Text(text) => self.text(text),
                Node::Raw(bytes) => self.out.extend(bytes),
            }
        }
        if !element.is_field() {
            self.between();
        }
    }

    /// What may stand around the children of a group: spaces, and any text.
    fn between(&mut self) {
        self.may_space();
        if self.chance(self.style.mixed) {
            let text = wording::other(self.random);
            self.text(&text);
        }
    }

    fn text(&mut self, text: &str) {
        let mut rest = text.chars().peekable();
        loop {
            if self.chance(self.style.sections) {
                let length = self.random.below(6);
                self.section(&mut rest, length);
            }
            let Some(letter) = rest.next() else { return };
            let closes = letter == '>' && self.out.ends_with(b"]]");
            if matches!(letter, '<' | '&' | '\r') || closes || self.chance(self.style.references) {
                self.reference(letter);
            } else {
                self.plain(letter);
            }
        }
    }

    /// A section with up to so many letters, which ends before a letter that it cannot hold.
    fn section(&mut self, rest: &mut std::iter::Peekable<std::str::Chars>, length: usize) {
        self.put("<![CDATA[");
        for _ in 0..length {
            let closes = self.out.ends_with(b"]]");
            let Some(letter) = rest.next_if(|letter| *letter != '\r' && !(closes && *letter == '>')) else {
                break;
            };
            self.plain(letter);
        }
        self.put("]]>");
    }

    /// A letter as it is; ends of line have three spellings, two of which must not meet.
    fn plain(&mut self, letter: char) {
        if letter != '\n' {
            return self.put(&letter.to_string());
        }
        let spaced = self.style.spaces > 0;
        let spellings: &[&str] = match (spaced, self.out.ends_with(b"\r")) {
            (false, _) => &["\n"],
            (true, false) => &["\n", "\r\n", "\r"],
            (true, true) => &["\r\n", "\r"],
        };
        let spelling = self.random.pick(spellings);
        self.put(spelling);
    }

    fn reference(&mut self, letter: char) {
        let zeros = if self.random.one_in(3) { "0".repeat(self.random.below(12)) } else { String::new() };
        let number = letter as u32;
        let entity = ENTITIES.iter().find(|(known, _)| *known == letter);
        let spelt = match (self.random.below(4), entity) {
            (0 | 1, Some((_, name))) => format!("&{name};"),
            (0 | 2, _) => format!("&#{zeros}{number};"),
            (1, _) => format!("&#x{zeros}{number:x};"),
            _ => format!("&#x{zeros}{number:X};"),
        };
        self.put(&spelt);
    }
}

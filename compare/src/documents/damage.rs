//! Blind damage to a text: bytes cut off, changed, dropped, doubled and put in.

use crate::random::Random;

/// Pieces that mean something, or would, were they allowed.
const PIECES: [&[u8]; 53] = [
    b"&",
    b"<",
    b">",
    b"]]>",
    b"]]",
    b"]",
    b"\"",
    b"'",
    b"=",
    b"/",
    b" ",
    b"\n",
    b"\r",
    b"\t",
    b"\0",
    b"\x01",
    b"\x0C",
    b"\x1F",
    b"\x7F",
    b"\x80",
    b"\xBF",
    b"\xC0\x80",
    b"\xC3",
    b"\xC3\xA4",
    b"\xE2\x82",
    b"\xE0\x80\x80",
    b"\xED\xA0\x80",
    b"\xEF\xBF\xBE",
    b"\xEF\xBF\xBF",
    b"\xEF\xBB\xBF",
    b"\xF0\x90\x80\x80",
    b"\xF4\x90\x80\x80",
    b"\xFF",
    b"&amp;",
    b"&lt",
    b"&nbsp;",
    b"&#0;",
    b"&#65;",
    b"&#xD;",
    b"&#xD800;",
    b"&#x110000;",
    b"&#99999999999999999999;",
    b"<![CDATA[",
    b"<![CDATA[]]>",
    b"<!-- -->",
    b"<!DOCTYPE a>",
    b"<?xml version='1.0'?>",
    b"<?a?>",
    b"<a>",
    b"</a>",
    b"<a/>",
    b" a=''",
    b" Ccy=\"EUR\"",
];

/// Bytes near which damage tells most.
const MARKUP: &[u8] = b"<>&;=\"'/![]?#. -";

pub fn damaged(random: &mut Random, text: &[u8]) -> Vec<u8> {
    let mut text = text.to_vec();
    for _ in 0..random.pick(&[1, 1, 1, 2, 3]) {
        damage(random, &mut text);
    }
    text
}

fn damage(random: &mut Random, text: &mut Vec<u8>) {
    let at = place(random, text);
    let length = (1 + random.below(random_width(at))).min(text.len() - at);
    match random.below(10) {
        0 => text.truncate(at),
        1 => {
            if at < text.len() {
                text[at] = random.byte();
            }
        }
        2 => {
            if at < text.len() {
                text[at] ^= 1 << random.below(8);
            }
        }
        3 => drop(text.drain(at..at + length.min(1))),
        4 => drop(text.drain(at..at + length)),
        5 => {
            let twice = text[at..at + length].to_vec();
            insert(text, at, &twice);
        }
        6 => {
            // a part of the text at another place
            let part = text[at..at + length].to_vec();
            let to = place(random, text);
            insert(text, to, &part);
        }
        7 => {
            let byte = random.byte();
            insert(text, at, &[byte]);
        }
        8 => {
            let end = text.len();
            insert(text, end, random.pick(&PIECES));
        }
        _ => insert(text, at, random.pick(&PIECES)),
    }
}

/// Mostly short stretches.
fn random_width(at: usize) -> usize {
    [1, 3, 10, 60, 400][at % 5]
}

fn insert(text: &mut Vec<u8>, at: usize, piece: &[u8]) {
    text.splice(at..at, piece.iter().copied());
}

/// A place in the text or its end; every second time at a byte of markup or right behind one.
fn place(random: &mut Random, text: &[u8]) -> usize {
    let at = random.below(text.len() + 1);
    if random.one_in(2) {
        return at;
    }
    let next = text[at..].iter().position(|byte| MARKUP.contains(byte));
    next.map_or(at, |steps| at + steps + random.below(2)).min(text.len())
}

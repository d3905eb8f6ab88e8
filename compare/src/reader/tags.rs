//! Attributes, references and sections.

use super::cursor::{character, wrong, Cursor};
use super::Read;

const ENTITIES: [(&[u8], u8); 5] =
    [(b"&lt;", b'<'), (b"&gt;", b'>'), (b"&amp;", b'&'), (b"&apos;", b'\''), (b"&quot;", b'"')];

pub const SECTION: &[u8] = b"<![CDATA[";

/// All attributes of a tag and the spaces behind them; the value of `Ccy` is handed back, if there is one.
pub fn attributes(cursor: &mut Cursor) -> Read<Option<Vec<u8>>> {
    let mut names: Vec<&[u8]> = Vec::new();
    let mut currency = None;
    while cursor.spaces() && !matches!(cursor.peek(), Some(b'/' | b'>')) {
        let at = cursor.at;
        let name = cursor.name()?;
        if names.contains(&name) {
            return wrong(at);
        }
        names.push(name);
        let value = attribute_value(cursor)?;
        if name == b"Ccy" {
            currency = Some(value);
        }
    }
    Ok(currency)
}

fn attribute_value(cursor: &mut Cursor) -> Read<Vec<u8>> {
    let quote = cursor.equals_and_quote()?;
    let mut value = Vec::new();
    loop {
        match cursor.peek() {
            Some(byte) if byte == quote => {
                cursor.at += 1;
                return Ok(value);
            }
            Some(b'&') => reference(cursor, &mut value)?,
            None | Some(b'<') => return wrong(cursor.at),
            Some(_) => value.extend(cursor.character()?),
        }
    }
}

/// A reference, which is wrong at its `&` whatever is wrong with it.
pub fn reference(cursor: &mut Cursor, to: &mut Vec<u8>) -> Read<()> {
    let at = cursor.at;
    for (word, byte) in ENTITIES {
        if cursor.skips(word) {
            to.push(byte);
            return Ok(());
        }
    }
    let base = if cursor.skips(b"&#x") {
        16
    } else if cursor.skips(b"&#") {
        10
    } else {
        return wrong(at);
    };
    let Some(number) = digits(cursor, base) else { return wrong(at) };
    let Some(letter) = character(number).filter(|_| cursor.peek() == Some(b';')) else { return wrong(at) };
    cursor.at += 1;
    to.extend(letter.encode_utf8(&mut [0; 4]).as_bytes());
    Ok(())
}

/// A number of at least one digit; one too large for its type stays too large for a character.
fn digits(cursor: &mut Cursor, base: u32) -> Option<u32> {
    let mut number = None;
    while let Some(digit) = cursor.peek().and_then(|byte| char::from(byte).to_digit(base)) {
        number = Some(number.unwrap_or(0u32).saturating_mul(base).saturating_add(digit));
        cursor.at += 1;
    }
    number
}

pub fn section(cursor: &mut Cursor, to: &mut Vec<u8>) -> Read<()> {
    cursor.word(SECTION)?;
    while !cursor.skips(b"]]>") {
        plain(cursor, to)?;
    }
    Ok(())
}

/// A character that stands for itself, save that every end of line becomes a line feed.
pub fn plain(cursor: &mut Cursor, to: &mut Vec<u8>) -> Read<()> {
    match cursor.peek() {
        None => return wrong(cursor.at),
        Some(b'\r') => {
            cursor.at += if cursor.sees(b"\r\n") { 2 } else { 1 };
            to.push(b'\n');
        }
        Some(_) => to.extend(cursor.character()?),
    }
    Ok(())
}

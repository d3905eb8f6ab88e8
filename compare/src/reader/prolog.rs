//! What may stand before the first document: the mark of UTF-8 and a declaration.

use super::cursor::{wrong, Cursor};
use super::Read;

const MARK: &[u8] = b"\xEF\xBB\xBF";

/// Steps over the mark and the declaration, where they stand. A part of the mark or of the declaration's word is
/// neither, and is left to whoever reads on.
pub fn prolog(cursor: &mut Cursor) -> Read<()> {
    cursor.skips(MARK);
    if cursor.skips(b"<?xml") {
        declaration(cursor)?;
    }
    Ok(())
}

/// A declaration whose first word has been read.
fn declaration(cursor: &mut Cursor) -> Read<()> {
    if !cursor.spaces() {
        return wrong(cursor.at);
    }
    setting(cursor, "version", is_version)?;
    let mut spaced = cursor.spaces();
    if spaced && cursor.peek() == Some(b'e') {
        setting(cursor, "encoding", is_encoding)?;
        spaced = cursor.spaces();
    }
    if spaced && cursor.peek() == Some(b's') {
        setting(cursor, "standalone", |value| value == b"yes" || value == b"no")?;
        cursor.spaces();
    }
    cursor.word(b"?>")
}

/// A name, the equals sign and a value of the given form, which is wrong where it begins, also if it never ends.
fn setting(cursor: &mut Cursor, name: &str, stands: impl Fn(&[u8]) -> bool) -> Read<()> {
    cursor.word(name.as_bytes())?;
    let quote = cursor.equals_and_quote()?;
    let begins = cursor.at;
    match cursor.up_to(quote) {
        Some(value) if stands(value) => Ok(()),
        _ => wrong(begins),
    }
}

fn is_version(value: &[u8]) -> bool {
    let digits = value.strip_prefix(b"1.");
    digits.is_some_and(|digits| !digits.is_empty() && digits.iter().all(u8::is_ascii_digit))
}

fn is_encoding(value: &[u8]) -> bool {
    value.eq_ignore_ascii_case(b"utf-8")
}

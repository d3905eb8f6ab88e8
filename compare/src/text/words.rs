//! Words of a case text, and the bytes they stand for.

use std::fmt::Write;

use crate::records::trimmed;

/// A field as one word.
pub fn word(field: &[u8]) -> String {
    let mut word = String::new();
    for byte in trimmed(field) {
        match byte {
            b' ' => word.push('_'),
            b'_' | b'\\' | b'#' => write!(word, "\\x{byte:02X}").expect("a string takes all"),
            byte if byte.is_ascii_graphic() => word.push(char::from(*byte)),
            byte => write!(word, "\\x{byte:02X}").expect("a string takes all"),
        }
    }
    if word.is_empty() {
        word.push('_');
    }
    word
}

/// The bytes of a word, padded to a field.
fn field<const WIDTH: usize>(word: &str) -> Result<[u8; WIDTH], String> {
    let mut field = [b' '; WIDTH];
    let mut rest = word.as_bytes();
    let mut length = 0;
    while let Some((first, after)) = rest.split_first() {
        let (byte, after) = match first {
            b'_' => (b' ', after),
            b'\\' => escaped(after)
                .ok_or_else(|| format!("in {word} a \\ is not followed by x and two hex digits"))?,
            byte if byte.is_ascii_graphic() => (*byte, after),
            _ => return Err(format!("{word} holds a byte that must be written \\xHH")),
        };
        let place =
            field.get_mut(length).ok_or_else(|| format!("{word} is longer than its {WIDTH} bytes"))?;
        *place = byte;
        length += 1;
        rest = after;
    }
    Ok(field)
}

fn escaped(after: &[u8]) -> Option<(u8, &[u8])> {
    let (digits, rest) = after.strip_prefix(b"x")?.split_at_checked(2)?;
    Some((hex_byte(digits)?, rest))
}

fn hex_byte(digits: &[u8]) -> Option<u8> {
    let value = |digit: u8| char::from(digit).to_digit(16);
    Some((value(digits[0])? * 16 + value(digits[1])?) as u8)
}

/// Bytes as hexadecimal digits.
pub fn hex(bytes: &[u8]) -> String {
    bytes.iter().map(|byte| format!("{byte:02X}")).collect()
}

/// One line's words, taken from the left.
pub struct Words<'a>(std::str::SplitWhitespace<'a>);

impl<'a> Words<'a> {
    /// A line without its comment.
    pub fn of(line: &'a str) -> Words<'a> {
        Words(line.split('#').next().unwrap_or("").split_whitespace())
    }

    pub fn next(&mut self) -> Option<&'a str> {
        self.0.next()
    }

    pub fn want(&mut self, what: &str) -> Result<&'a str, String> {
        self.0.next().ok_or_else(|| format!("{what} is missing"))
    }

    pub fn field<const WIDTH: usize>(&mut self, what: &str) -> Result<[u8; WIDTH], String> {
        field(self.want(what)?).map_err(|why| format!("{what}: {why}"))
    }

    /// A decimal number that fits its type.
    pub fn number<T: TryFrom<u64>>(&mut self, what: &str) -> Result<T, String> {
        let word = self.want(what)?;
        let value = word.parse::<u64>().ok().and_then(|value| T::try_from(value).ok());
        value.ok_or_else(|| format!("{what}: {word} is no number that fits in {} bytes", size_of::<T>()))
    }

    /// All further words as hexadecimal digits; blanks may stand between bytes.
    pub fn hex(&mut self) -> Result<Vec<u8>, String> {
        let mut bytes = Vec::new();
        for word in self.0.by_ref() {
            let pairs = word.as_bytes().chunks(2);
            let read = pairs
                .map(|pair| if pair.len() == 2 { hex_byte(pair) } else { None })
                .collect::<Option<Vec<_>>>();
            bytes.extend(read.ok_or_else(|| format!("{word} is not pairs of hex digits"))?);
        }
        Ok(bytes)
    }

    pub fn end(&mut self) -> Result<(), String> {
        self.0.next().map_or(Ok(()), |word| Err(format!("{word} is one word too many")))
    }
}

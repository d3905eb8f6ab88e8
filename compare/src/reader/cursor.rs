//! A place in a text, and the smallest things that may stand there: words, spaces, names, characters.

use super::{Read, Stop, FORM};

/// What is not of the accepted form, at this byte.
pub fn wrong<T>(at: usize) -> Read<T> {
    Err(Stop { number: FORM, at })
}

pub fn is_space(byte: u8) -> bool {
    matches!(byte, b' ' | b'\t' | b'\n' | b'\r')
}

pub fn begins_name(byte: u8) -> bool {
    byte.is_ascii_alphabetic() || matches!(byte, b'_' | b':')
}

fn goes_on_in_name(byte: u8) -> bool {
    begins_name(byte) || byte.is_ascii_digit() || matches!(byte, b'.' | b'-')
}

/// Whether a number is that of a character: what Rust calls one, less the controls and the last two of a plane.
pub fn character(number: u32) -> Option<char> {
    let stands = match number {
        0x9 | 0xA | 0xD => true,
        0..0x20 => false,
        0xFFFE | 0xFFFF => false,
        _ => true,
    };
    char::from_u32(number).filter(|_| stands)
}

pub struct Cursor<'a> {
    text: &'a [u8],
    pub at: usize,
}

impl<'a> Cursor<'a> {
    pub fn new(text: &'a [u8]) -> Cursor<'a> {
        Cursor { text, at: 0 }
    }

    /// The byte here; none where the text has ended.
    pub fn peek(&self) -> Option<u8> {
        self.text.get(self.at).copied()
    }

    pub fn sees(&self, word: &[u8]) -> bool {
        self.rest().starts_with(word)
    }

    fn rest(&self) -> &'a [u8] {
        &self.text[self.at..]
    }

    /// Steps over this word if all of it stands here, and says whether it does.
    pub fn skips(&mut self, word: &[u8]) -> bool {
        let stands = self.sees(word);
        if stands {
            self.at += word.len();
        }
        stands
    }

    /// This word has to stand here; else the first byte that differs is wrong.
    pub fn word(&mut self, word: &[u8]) -> Read<()> {
        for byte in word {
            if self.peek() != Some(*byte) {
                return wrong(self.at);
            }
            self.at += 1;
        }
        Ok(())
    }

    /// Steps over spaces, and says whether there were any.
    pub fn spaces(&mut self) -> bool {
        let from = self.at;
        while self.peek().is_some_and(is_space) {
            self.at += 1;
        }
        self.at > from
    }

    pub fn name(&mut self) -> Read<&'a [u8]> {
        let from = self.at;
        if !self.peek().is_some_and(begins_name) {
            return wrong(from);
        }
        while self.peek().is_some_and(goes_on_in_name) {
            self.at += 1;
        }
        Ok(&self.text[from..self.at])
    }

    /// The equals sign between a name and its value, and the quote that opens the value.
    pub fn equals_and_quote(&mut self) -> Read<u8> {
        self.spaces();
        self.word(b"=")?;
        self.spaces();
        match self.peek() {
            Some(quote @ (b'"' | b'\'')) => {
                self.at += 1;
                Ok(quote)
            }
            _ => wrong(self.at),
        }
    }

    /// Everything up to the closing quote, which is stepped over; none where no such quote follows.
    pub fn up_to(&mut self, quote: u8) -> Option<&'a [u8]> {
        let rest = self.rest();
        let length = rest.iter().position(|byte| *byte == quote)?;
        self.at += length + 1;
        Some(&rest[..length])
    }

    /// One character, handed over as its bytes. One that is none is wrong where it begins.
    pub fn character(&mut self) -> Read<&'a [u8]> {
        let rest = self.rest();
        let longest = rest.len().min(4);
        // at most one of the four lengths makes a single character
        let found = (1..=longest).find_map(|length| {
            let text = std::str::from_utf8(&rest[..length]).ok()?;
            character(text.chars().next()? as u32).map(|_| &rest[..length])
        });
        let bytes = found.ok_or(Stop { number: FORM, at: self.at })?;
        self.at += bytes.len();
        Ok(bytes)
    }
}

//! What the text of a field becomes, and which texts may become it.

use crate::records::padded;

#[derive(Clone, Copy, Debug, PartialEq, Eq)]
pub enum Form {
    Text(usize),
    Receiver,
    Number,
    Amount,
    Date,
    /// Looked at for one word only.
    Any,
}

impl Form {
    pub fn fits(self, text: &[u8]) -> bool {
        match self {
            Form::Text(most) => text.len() <= most,
            Form::Receiver => text.len() <= 11,
            Form::Number => number(text).is_some(),
            Form::Amount => cents(text).is_some(),
            Form::Date => date(text).is_some(),
            Form::Any => true,
        }
    }
}

/// The number of these digits, all of them digits.
fn decimal(digits: &[u8]) -> Option<u128> {
    digits
        .iter()
        .try_fold(0, |number, digit| digit.is_ascii_digit().then(|| number * 10 + u128::from(digit - b'0')))
}

pub fn number(text: &[u8]) -> Option<u64> {
    let number = decimal(text).filter(|_| (1..=15).contains(&text.len()))?;
    u64::try_from(number).ok()
}

/// An amount in cents.
pub fn cents(text: &[u8]) -> Option<u64> {
    let point = text.iter().position(|byte| *byte == b'.');
    let (whole, behind) = match point {
        Some(point) => (&text[..point], &text[point + 1..]),
        None => (text, &text[..0]),
    };
    if !(1..=18).contains(&(whole.len() + behind.len())) {
        return None;
    }
    let fraction = match behind.len() {
        0 => 0,
        1 => 10 * decimal(behind)?,
        2 => decimal(behind)?,
        _ => return None,
    };
    u64::try_from(100 * decimal(whole)? + fraction).ok()
}

/// The eight digits of a date; whether there is such a day is not the reader's matter.
pub fn date(text: &[u8]) -> Option<u32> {
    let [year @ .., b'-', m, n, b'-', d, e] = text else { return None };
    let digits = [year, &[*m, *n, *d, *e]].concat();
    let number = decimal(&digits).filter(|_| digits.len() == 8)?;
    u32::try_from(number).ok()
}

/// A BIC of eight is that of the head office.
pub fn receiver(text: &[u8]) -> [u8; 11] {
    if text.len() == 8 {
        padded(&[text, b"XXX"].concat())
    } else {
        padded(text)
    }
}

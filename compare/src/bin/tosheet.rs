//! Reads documents from standard input by the second reader, and writes the sheet that they become, or with
//! `--lines` its lines:  tosheet [--lines] < TEXT
//!
//! A text that is refused is told in one line on standard error, as `./read` does.

use std::io::{self, Read, Write};
use std::process::ExitCode;

use compare::reader::{read, Answer, DEEP, FORM, LACK};
use compare::text::write_sheet;

fn main() -> io::Result<ExitCode> {
    let lines = match std::env::args().nth(1).as_deref() {
        None => false,
        Some("--lines") => true,
        Some(other) => return Err(io::Error::other(format!("{other} is no word for this"))),
    };
    let mut text = Vec::new();
    io::stdin().read_to_end(&mut text)?;
    let answer = read(&text, usize::MAX);
    if answer.number != 0 {
        eprintln!("{}", refusal(&text, &answer));
        return Ok(ExitCode::FAILURE);
    }
    let written = if lines { write_sheet(&answer.sheet, None).into_bytes() } else { answer.sheet };
    io::stdout().write_all(&written).map(|()| ExitCode::SUCCESS)
}

fn refusal(text: &[u8], answer: &Answer) -> String {
    let Answer { number, at, .. } = answer;
    let before = &text[..*at as usize];
    let line = before.split(|byte| *byte == b'\n').count();
    let last = before.rsplit(|byte| *byte == b'\n').next().unwrap_or(before);
    // a character is counted by its first byte
    let column = 1 + last.iter().filter(|byte| !(0x80..0xC0).contains(*byte)).count();
    let end = if before.len() == text.len() { ", the end of the text" } else { "" };
    format!("{number} at byte {at} (line {line}, column {column}{end}): {}", reason(*number))
}

fn reason(number: u32) -> &'static str {
    match number {
        FORM => "the text is not of the accepted form",
        DEEP => "elements stand within one another more than 32 deep",
        LACK => "in this element something needed is missing or stands twice, or a document is no Document",
        _ => "the sheet's space is too short",
    }
}

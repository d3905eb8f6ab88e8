//! Packs a case text from standard input into the bytes that the program `judge` reads. See `cases/README.md`.

use std::io::{self, Read, Write};
use std::process::ExitCode;

fn main() -> io::Result<ExitCode> {
    let mut text = String::new();
    io::stdin().read_to_string(&mut text)?;
    match compare::text::read(&text) {
        Ok(bytes) => io::stdout().write_all(&bytes).map(|()| ExitCode::SUCCESS),
        Err(why) => {
            eprintln!("{why}");
            Ok(ExitCode::FAILURE)
        }
    }
}

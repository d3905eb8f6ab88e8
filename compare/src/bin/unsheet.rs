//! Prints the bytes of a sheet as the lines of a case text:  unsheet [DATE] < SHEET
//!
//! A bulk shows its date, unless it is the one given: the date of the case that the lines are for.

use std::io::{self, Read, Write};

fn main() -> io::Result<()> {
    let date = std::env::args().nth(1).map(|date| date.parse().map_err(io::Error::other)).transpose()?;
    let mut sheet = Vec::new();
    io::stdin().read_to_end(&mut sheet)?;
    io::stdout().write_all(compare::text::write_sheet(&sheet, date).as_bytes())
}

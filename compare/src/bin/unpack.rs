//! Prints input bytes of the program `judge` as a case text; `pack` gives the same bytes back.

use std::io::{self, Read, Write};

fn main() -> io::Result<()> {
    let mut bytes = Vec::new();
    io::stdin().read_to_end(&mut bytes)?;
    io::stdout().write_all(compare::text::write(&bytes).as_bytes())
}

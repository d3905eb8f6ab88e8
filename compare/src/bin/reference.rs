//! The program `judge` by the reference: input bytes on standard input, lines on standard output.

use std::io::{self, Read, Write};

use compare::program::printed;
use compare::reference::Reference;

fn main() -> io::Result<()> {
    let mut input = Vec::new();
    io::stdin().read_to_end(&mut input)?;
    let text = printed(&input, &mut Reference).map_err(io::Error::other)?;
    io::stdout().write_all(text.as_bytes())
}

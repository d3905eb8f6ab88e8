//! The second reader behind the pipes of `server.c`, in place of an archive: to try the comparison itself.

use std::io::{self, Read, Write};

use compare::reader::read;

const READ: u32 = 3;
/// Function and date, then the lengths of the six buffers.
const WORDS: usize = 8;

/// The words of one call; none where the input ends.
fn words(from: &mut impl Read) -> io::Result<Option<[u32; WORDS]>> {
    let mut bytes = [0; 4 * WORDS];
    match from.read_exact(&mut bytes) {
        Err(why) if why.kind() == io::ErrorKind::UnexpectedEof => return Ok(None),
        other => other?,
    }
    let word = |at: usize| u32::from_le_bytes(bytes[4 * at..4 * at + 4].try_into().expect("four bytes"));
    Ok(Some(std::array::from_fn(word)))
}

fn main() -> io::Result<()> {
    let (mut from, mut to) = (io::stdin().lock(), io::stdout().lock());
    while let Some([function, _, text, .., space, _]) = words(&mut from)? {
        if function != READ {
            return Err(io::Error::other("only reading is served here"));
        }
        let (mut text, mut space) = (vec![0; text as usize], vec![0; space as usize]);
        from.read_exact(&mut text)?;
        from.read_exact(&mut space)?;
        let answer = read(&text, space.len());
        space[..answer.sheet.len()].copy_from_slice(&answer.sheet);
        to.write_all(&answer.number.to_le_bytes())?;
        to.write_all(&answer.length.to_le_bytes())?;
        to.write_all(&answer.at.to_le_bytes())?;
        to.write_all(&1u32.to_le_bytes())?;
        to.write_all(&space)?;
        to.flush()?;
    }
    Ok(())
}

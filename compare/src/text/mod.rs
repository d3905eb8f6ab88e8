//! A case of the program `judge` as text a person can write, one thing a line:
//!
//! ```text
//! # a comment, from the sign to the end of the line
//! date 20260615
//! row BIC FIRST LAST KIND
//! rows N                                  what the table says it counts
//! register ROOM [used N]
//! entry SENDER IDENTIFIER TAG
//! bulk IDENTIFIER SENDER [kind N] [number N] [sum N] [date N] [marks N] [count N]
//! message IDENTIFIER RECEIVER AMOUNT [original N] [reason TEXT] [name TEXT]
//! bulks N                                 what the sheet says it counts
//! cut PART N                              drops the part's last N bytes
//! raw PART HEX                            adds bytes at the part's end
//! zeros PART N                            adds N zero bytes there
//! length PART N                           what the input says the part's length is
//! ```
//!
//! What stands in brackets may be left out and then has its usual value: kind 1, marks 3, the number, sum and
//! count that the messages come to, the call's date; original 0, reason and name blank; as many used as there are
//! `entry` lines. A PART is `table`, `register` or `sheet`; `cut`, `raw` and `zeros` also take `input`, the whole.
//!
//! In a text `_` is a space and `\xHH` any byte; texts are padded with spaces to their field. A part with only
//! `raw` and `zeros` lines is those bytes and no others, and so is the input in a text without a date.

mod read;
mod words;
mod write;

pub use read::read;
pub use write::{write, write_input, write_sheet};

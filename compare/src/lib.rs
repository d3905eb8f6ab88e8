//! A second judge, written from the rules alone, and the tools that set it against the archive.

pub mod archive;
pub mod call;
pub mod checks;
pub mod cut;
pub mod days;
pub mod documents;
#[cfg(feature = "expat")]
pub mod expat;
pub mod generate;
pub mod program;
pub mod random;
pub mod reader;
pub mod records;
pub mod reference;
pub mod shrink;
pub mod text;

//! Questions about open days: what is answered, and who may be asked.

use crate::call::Trouble;

/// Number 0 and the value, or a refusal's number and 0.
#[derive(Clone, Copy, Debug, PartialEq, Eq)]
pub struct Day {
    pub number: u32,
    pub value: u32,
}

/// Whoever can be asked: the reference or the archive. Questions come many at a time, since of one alone most of the time would go
/// into the pipes.
pub trait Calendar {
    /// Of each date whether it is open, and the next open day.
    fn days(&mut self, dates: &[u32]) -> Result<[Vec<Day>; 2], Trouble>;
    /// Of each two dates how many open days there are from the first up to the second.
    fn counts(&mut self, pairs: &[[u32; 2]]) -> Result<Vec<Day>, Trouble>;
}

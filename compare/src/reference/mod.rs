//! The second judge: the rules read as directly as Rust allows, for being right rather than fast.
//!
//! It shares no line and no search with the proved judge. Sums are `u128`, positions `i128`, the register a set. The judge
//! by the index is the plain one, with the searches gone over once more to count what they read.

mod calendar;
mod index;
mod indexed;
mod judging;
mod open;
mod refusals;
mod routing;
mod rules;

pub use calendar::is_date;
pub use index::start;
pub use indexed::{build_index, judge_indexed, right_index};
pub use judging::judge;
pub use open::{is_open, next_open_day, open_day, open_days};
pub use routing::lookup;
pub use rules::{badly_formed, in_set};

use crate::call::{Answer, Call, IndexedAnswer, Judge, Route, Trouble};
use crate::days::{Calendar, Day};

/// The reference as one who may be asked.
pub struct Reference;

impl Judge for Reference {
    fn judge(&mut self, call: &mut Call) -> Result<Answer, Trouble> {
        let Call { date, sheet, table, register, positions, report, .. } = call;
        Ok(judge(*date, sheet, table, register, positions, report))
    }

    fn judge_indexed(&mut self, call: &mut Call) -> Result<IndexedAnswer, Trouble> {
        let Call { date, sheet, table, register, positions, report, index } = call;
        Ok(judge_indexed(*date, sheet, table, register, positions, report, index))
    }

    fn build_index(&mut self, register: &[u8], index: &mut [u8]) -> Result<u32, Trouble> {
        Ok(build_index(register, index))
    }

    fn lookup(&mut self, date: u32, table: &[u8], bic: &[u8]) -> Result<Route, Trouble> {
        Ok(lookup(date, table, bic))
    }
}

impl Calendar for Reference {
    fn days(&mut self, dates: &[u32]) -> Result<[Vec<Day>; 2], Trouble> {
        Ok([open_day, next_open_day].map(|question| dates.iter().copied().map(question).collect()))
    }

    fn counts(&mut self, pairs: &[[u32; 2]]) -> Result<Vec<Day>, Trouble> {
        Ok(pairs.iter().map(|[from, to]| open_days(*from, *to)).collect())
    }
}

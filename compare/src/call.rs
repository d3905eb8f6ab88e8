//! One call of the judge: what is lent, what is answered, and who may be asked.

use crate::records::{number, read_section, BulkLine, Header, Message, MessageLine, Record, COUNT, POSITION};

/// What one call lends. The first three parts are only read; the plain judge is not lent the index.
#[derive(Clone, Debug, PartialEq, Eq)]
pub struct Call {
    pub date: u32,
    pub sheet: Vec<u8>,
    pub table: Vec<u8>,
    pub register: Vec<u8>,
    pub positions: Vec<u8>,
    pub report: Vec<u8>,
    pub index: Vec<u8>,
}

/// Number 0 and the report's length, or a refusal's number and 0.
#[derive(Clone, Copy, Debug, PartialEq, Eq)]
pub struct Answer {
    pub number: u32,
    pub length: u64,
}

/// The same, and how many slots the searches read; 0 of them with a refusal.
#[derive(Clone, Copy, Debug, PartialEq, Eq)]
pub struct IndexedAnswer {
    pub number: u32,
    pub length: u64,
    pub slots: u64,
}

/// What the lookup answers; `found` and `reachable` are 0 or 1, as C has them.
#[derive(Clone, Copy, Debug, PartialEq, Eq)]
pub struct Route {
    pub number: u32,
    pub found: u32,
    pub row: u32,
    pub reachable: u32,
}

/// Why no answer came, or why one cannot stand.
pub type Trouble = String;

/// What the space for a new index holds: no slot of a right one has these bytes.
const UNTOUCHED: u8 = 0xA5;

/// What each of the three answers to one call, and the call as it is left.
pub struct Outcomes {
    pub plain: (Answer, Call),
    pub indexed: (IndexedAnswer, Call),
    pub built: (u32, Call),
}

impl Outcomes {
    /// The call three times, as it is lent to each; where an index is to be built, the space is filled first.
    pub fn lent(call: &Call) -> [Call; 3] {
        let index = vec![UNTOUCHED; call.index.len()];
        [call.clone(), call.clone(), Call { index, ..call.clone() }]
    }
}

/// Whoever can be asked: the reference, the archive, or a judge made wrong on purpose in a test.
pub trait Judge {
    /// Judges the call and leaves register, positions and report as the judge left them.
    fn judge(&mut self, call: &mut Call) -> Result<Answer, Trouble>;
    /// The same by the index, which is left as the judge left it too.
    fn judge_indexed(&mut self, call: &mut Call) -> Result<IndexedAnswer, Trouble>;
    /// Fills the index from the register, or answers why not.
    fn build_index(&mut self, register: &[u8], index: &mut [u8]) -> Result<u32, Trouble>;
    fn lookup(&mut self, date: u32, table: &[u8], bic: &[u8]) -> Result<Route, Trouble>;

    /// The three of them on one call, each as if it were alone.
    fn all(&mut self, call: &Call) -> Result<Outcomes, Trouble> {
        let [mut plain, mut indexed, mut built] = Outcomes::lent(call);
        let (answer, by_index) = (self.judge(&mut plain)?, self.judge_indexed(&mut indexed)?);
        let number = self.build_index(&built.register, &mut built.index)?;
        Ok(Outcomes { plain: (answer, plain), indexed: (by_index, indexed), built: (number, built) })
    }
}

/// One bulk of a report with its messages.
#[derive(Clone, Debug, PartialEq, Eq)]
pub struct Judged {
    pub line: BulkLine,
    pub messages: Vec<MessageLine>,
}

/// Reads a report of exactly these bytes; none where they are not whole sections.
pub fn read_report(mut report: &[u8]) -> Option<Vec<Judged>> {
    let lines = read_section::<BulkLine>(&mut report)?;
    let judged = lines
        .into_iter()
        .map(|line| Some(Judged { line, messages: read_section(&mut report)? }))
        .collect::<Option<Vec<_>>>()?;
    report.is_empty().then_some(judged)
}

/// The bytes a report takes.
pub fn report_length(bulks: usize, messages: usize) -> usize {
    4 + 68 * bulks + 38 * messages
}

/// Report space that no sheet of so many bytes can outgrow.
pub fn enough_report(sheet_length: usize) -> usize {
    report_length(sheet_length / (Header::WIDTH + COUNT), sheet_length / Message::WIDTH)
}

/// Reads positions, each in two's complement.
pub fn read_positions(positions: &[u8]) -> Vec<i64> {
    positions.chunks_exact(POSITION).map(|bytes| number(bytes) as u64 as i64).collect()
}

pub fn write_positions(positions: &[i64]) -> Vec<u8> {
    positions.iter().flat_map(|position| position.to_be_bytes()).collect()
}

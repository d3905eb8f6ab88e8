//! The checks over cuts and runs: the reference passes them, and each of some wrong judges is caught.

mod support;

use compare::call::{Answer, Call, IndexedAnswer, Judge, Route, Trouble};
use compare::checks::{same_judgement, same_run};
use compare::cut;
use compare::generate;
use compare::random::Random;
use compare::reference::{lookup, right_index, Reference};
use compare::shrink;
use std::time::Duration;
use support::*;

/// The reference with a twist: what it lends, what it answers and what it leaves can be bent.
struct Bent<F: FnMut(&Call, &mut Call, Answer) -> Answer>(F);

impl<F: FnMut(&Call, &mut Call, Answer) -> Answer> Judge for Bent<F> {
    fn judge(&mut self, call: &mut Call) -> Result<Answer, Trouble> {
        let before = call.clone();
        let answer = judge(call);
        Ok((self.0)(&before, call, answer))
    }

    fn judge_indexed(&mut self, call: &mut Call) -> Result<IndexedAnswer, Trouble> {
        let before = call.clone();
        let IndexedAnswer { number, length, slots } = Reference.judge_indexed(call)?;
        let Answer { number, length } = (self.0)(&before, call, Answer { number, length });
        Ok(IndexedAnswer { number, length, slots })
    }

    fn build_index(&mut self, register: &[u8], index: &mut [u8]) -> Result<u32, Trouble> {
        Reference.build_index(register, index)
    }

    fn lookup(&mut self, date: u32, table: &[u8], bic: &[u8]) -> Result<Route, Trouble> {
        Ok(lookup(date, table, bic))
    }
}

fn bulk(identifier: &str, message: &str) -> (Vec<u8>, Vec<Vec<u8>>) {
    (header(identifier, "AAAALV22", 1, 5), vec![payment(message, "BBBBLV22XXX", 5)])
}

fn three_bulks() -> Call {
    call(&[bulk("D1", "T1"), bulk("D2", "T2"), bulk("D3", "T1")])
}

/// Two files, the second of which repeats the first's message.
fn two_files() -> cut::Run {
    let file = |bulk| cut::File { date: DATE, sheet: sheet(&[bulk]) };
    let call = three_bulks();
    let files = vec![file(bulk("D1", "T1")), file(bulk("D2", "T1")), file(bulk("D2", "T2"))];
    cut::Run { table: call.table, positions: call.positions, room: 9, files }
}

#[test]
fn the_reference_passes_generated_cuts_and_runs() {
    for case in 0..2_000 {
        let random = &mut Random::of(9, case);
        let call = generate::call(random);
        assert_eq!(cut::cuts(&mut Reference, &call), Ok(()));
        assert_eq!(cut::cuts(&mut cut::ByIndex(&mut Reference), &call), Ok(()));
        let run = generate::run(random);
        assert_eq!(cut::run(&mut Reference, &run), Ok(()));
        assert_eq!(cut::run(&mut cut::ByIndex(&mut Reference), &run), Ok(()));
        assert_eq!(same_run(&mut Reference, &run), Ok(()));
    }
}

#[test]
fn a_judge_that_refuses_short_sheets_fails_the_cut() {
    let mut refuses = Bent(|before: &Call, call: &mut Call, answer| {
        if before.sheet.len() > 200 {
            return answer;
        }
        *call = before.clone();
        Answer { number: 5, length: 0 }
    });
    assert_eq!(
        cut::cuts(&mut refuses, &three_bulks()),
        Err("cut at bulk 0: the first part is refused".to_string())
    );
}

#[test]
fn a_judge_that_copies_its_first_line_fails_the_cut() {
    let mut copies = Bent(|_: &Call, call: &mut Call, answer| {
        if call.report.starts_with(&[0, 0, 0, 3]) {
            call.report.copy_within(4..4 + 64, 4 + 128);
        }
        answer
    });
    let failure = cut::cuts(&mut copies, &three_bulks()).unwrap_err();
    assert!(failure.ends_with("the lines of the parts are not those of the whole"), "{failure}");
}

#[test]
fn a_judge_that_forgets_an_entry_fails_the_run() {
    let mut forgets = Bent(|_: &Call, call: &mut Call, answer| {
        call.register[..4].fill(0);
        answer
    });
    let failure = cut::run(&mut forgets, &two_files());
    assert_eq!(failure, Err("file 1: an identifier of one sender is accepted twice".to_string()));
}

#[test]
fn a_judge_that_makes_up_money_fails_the_run() {
    let mut makes_up = Bent(|_: &Call, call: &mut Call, answer| {
        call.positions[15] += 1;
        answer
    });
    let failure = cut::run(&mut makes_up, &two_files());
    assert_eq!(failure, Err("the positions are not the start and what was accepted".to_string()));
}

#[test]
fn a_refusal_that_writes_fails_the_run() {
    let mut writes = Bent(|_: &Call, call: &mut Call, answer: Answer| {
        call.report.fill(1);
        answer
    });
    let mut run = two_files();
    run.files[0].date = 0;
    let failure = cut::run(&mut writes, &run);
    assert_eq!(failure, Err("file 0 is refused and yet changes something".to_string()));
}

#[test]
fn a_judge_that_leaves_the_index_behind_fails_cuts_and_runs_by_it() {
    let mut forgets = Bent(|before: &Call, call: &mut Call, answer| {
        call.index = before.index.clone();
        answer
    });
    let failure = "the index left is not that of the register left".to_string();
    assert_eq!(cut::cuts(&mut cut::ByIndex(&mut forgets), &three_bulks()), Err(failure.clone()));
    assert_eq!(cut::run(&mut cut::ByIndex(&mut forgets), &two_files()), Err(failure));
    assert!(same_judgement(&mut forgets, &three_bulks()).is_err());
}

#[test]
fn a_judge_that_refuses_the_right_index_fails_the_run() {
    let mut refuses = Bent(|before: &Call, call: &mut Call, answer| {
        if before.index.iter().all(|byte| *byte == 0) {
            return answer;
        }
        *call = before.clone();
        Answer { number: 13, length: 0 }
    });
    let failure = cut::run(&mut cut::ByIndex(&mut refuses), &two_files());
    assert_eq!(failure, Err("the index of the register is refused".to_string()));
}

#[test]
fn a_refusal_that_writes_the_index_fails_the_run() {
    let mut writes = Bent(|before: &Call, call: &mut Call, answer: Answer| {
        if answer.number != 0 && before.date == 0 {
            call.index.fill(1);
        }
        answer
    });
    let mut run = two_files();
    run.files[1].date = 0;
    assert!(cut::run(&mut cut::ByIndex(&mut writes), &run).is_err());
    assert!(same_run(&mut writes, &run).is_err());
}

#[test]
fn a_failing_call_shrinks_to_what_makes_it_fail() {
    // wrong whenever a message of seven cents is accepted
    let mut wrong = Bent(|_: &Call, call: &mut Call, answer| {
        if call.positions.chunks(8).any(|position| position == 7i64.to_be_bytes()) {
            call.report[4] ^= 1;
        }
        answer
    });
    let messages =
        ["T1", "T2", "T3"].map(|name| payment(name, "BBBBLV22XXX", if name == "T2" { 7 } else { 0 }));
    let bulks = [bulk("D1", "T1"), (header("D2", "AAAALV22", 3, 7), messages.to_vec())];
    let mut start = call(&bulks[1..]);
    start.register = register(&[entry("AAAALV22", "X", 1)], 9);
    start.index = right_index(&start.register);
    assert!(same_judgement(&mut wrong, &start).is_err());
    let small =
        shrink::call(start, Duration::from_secs(20), |call| same_judgement(&mut wrong, call).is_err());
    assert_eq!(
        small.sheet,
        sheet(&[(header("D2", "AAAALV22", 1, 7), vec![payment("T2", "BBBBLV22XXX", 7)])])
    );
    assert_eq!(small.table.len(), 4 + 2 * 20);
    assert_eq!(small.register, register(&[], 2));
    assert_eq!(small.index, vec![0; 16]);
}

#[test]
fn a_failing_run_shrinks_to_the_files_that_matter() {
    let fails = |run: &cut::Run| run.files.iter().filter(|file| file.sheet.len() > 100).count() > 1;
    let small = shrink::run(two_files(), Duration::from_secs(20), fails);
    assert_eq!((small.files.len(), small.table.len()), (2, 4));
}

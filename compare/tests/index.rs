//! The index and the judge by it, against values worked out by hand. With 8 slots 257 leaves 1, so an entry starts at the sum of
//! its bytes modulo 8: AAAALV22 and 33 spaces leave 2, T1 leaves 5, D1 leaves 5; with their tags T1 starts at 0 and D1 at 1.

mod support;

use compare::call::{Call, IndexedAnswer, Judge};
use compare::generate;
use compare::random::Random;
use compare::records::{number as value, read_bulks};
use compare::reference::{build_index, start, Reference};
use support::*;

/// A register of so much room with these entries in use, each of 0 bytes but for its last ones.
fn register_of(ends: &[&[u8]], room: usize) -> Vec<u8> {
    let entry = |end: &&[u8]| [vec![0; 44 - end.len()], end.to_vec()].concat();
    register(&ends.iter().map(entry).collect::<Vec<_>>(), room)
}

fn names(names: &[u32]) -> Vec<u8> {
    names.iter().flat_map(|name| name.to_be_bytes()).collect()
}

/// Builds over bytes that must all go.
fn built(register: &[u8], room: usize) -> Vec<u8> {
    let mut index = vec![0xEE; 8 * room];
    assert_eq!(build_index(register, &mut index), 0);
    index
}

fn with_index(mut call: Call, slots: &[u32]) -> Call {
    call.index = names(slots);
    call
}

/// The answer of the judge by the index and the slots it leaves; a refusal must keep every byte.
fn by_index(call: &Call) -> (IndexedAnswer, Call) {
    let mut after = call.clone();
    let answer = Reference.judge_indexed(&mut after).unwrap();
    if answer.number != 0 {
        assert_eq!((answer.length, answer.slots, &after), (0, 0, call));
    }
    (answer, after)
}

/// Judges by the index and as the plain judge does; the slots read and the names left.
fn judged(call: &Call) -> (u64, Vec<u8>) {
    let mut plain = call.clone();
    let answer = judge(&mut plain);
    let (by_index, after) = by_index(call);
    assert_eq!((by_index.number, by_index.length), (answer.number, answer.length));
    plain.index = after.index.clone();
    assert_eq!(after, plain);
    if answer.number == 0 {
        assert_eq!(after.index, built(&after.register, after.index.len() / 8));
    }
    (by_index.slots, after.index)
}

/// One bulk D1 of these payments over a register with room for four entries and none in use.
fn payments(identifiers: &[&str]) -> Call {
    let messages: Vec<Vec<u8>> = identifiers.iter().map(|name| payment(name, "BBBBLV22XXX", 5)).collect();
    let call = Call { register: register(&[], 4), ..one_bulk(&messages) };
    with_index(call, &[0; 8])
}

#[test]
fn a_start_is_a_number_to_base_257() {
    let at = |place: usize, byte: u8, slots: usize| {
        let mut entry = [0; 44];
        entry[place] = byte;
        start(&entry, slots)
    };
    // 257 leaves 5 modulo 6, which is -1; an odd power of it stays 5, an even one is 1
    assert_eq!([at(43, 5, 6), at(43, 6, 6), at(43, 255, 6)], [5, 0, 3]);
    assert_eq!(
        [at(42, 1, 6), at(42, 2, 6), at(41, 1, 6), at(0, 1, 6), at(0, 2, 6), at(1, 1, 6)],
        [5, 4, 1, 5, 4, 1]
    );
    // 257 leaves 7 modulo 10, and its powers 7, 9, 3, 1 by turns: the 43rd leaves 3
    assert_eq!([at(42, 1, 10), at(41, 1, 10), at(40, 1, 10), at(0, 1, 10), at(0, 7, 10)], [7, 9, 3, 3, 1]);
    // 257 * 257 is 66,049
    assert_eq!([at(42, 255, 120_000), at(41, 1, 120_000), at(41, 2, 120_000)], [65_535, 66_049, 12_098]);
    assert_eq!(start(&[255; 44], 256), 44 * 255 % 256);
}

#[test]
fn entries_go_to_the_first_empty_slot_from_their_start() {
    let three = |ends: &[&[u8]]| built(&register_of(ends, 3), 3);
    assert_eq!(three(&[]), names(&[0, 0, 0, 0, 0, 0]));
    assert_eq!(three(&[&[1]]), names(&[0, 1, 0, 0, 0, 0]));
    assert_eq!(three(&[&[1, 0]]), names(&[0, 0, 0, 0, 0, 1]));
    assert_eq!(three(&[&[1], &[7]]), names(&[0, 1, 2, 0, 0, 0]));
    assert_eq!(three(&[&[7], &[1]]), names(&[0, 1, 2, 0, 0, 0]));
    // round the end, where the third is then pushed on
    assert_eq!(three(&[&[5], &[11], &[0]]), names(&[2, 3, 0, 0, 0, 1]));
    assert_eq!(three(&[&[0], &[5], &[11]]), names(&[1, 3, 0, 0, 0, 2]));
    // an entry of zero bytes is one like any other
    assert_eq!(three(&[&[0]]), names(&[1, 0, 0, 0, 0, 0]));
}

#[test]
fn an_entry_that_stands_twice_is_named_once() {
    let three = |ends: &[&[u8]]| built(&register_of(ends, 3), 3);
    assert_eq!(three(&[&[4], &[4], &[10]]), names(&[0, 0, 0, 0, 1, 3]));
    assert_eq!(three(&[&[4], &[10], &[4]]), names(&[0, 0, 0, 0, 1, 2]));
    assert_eq!(three(&[&[4], &[10], &[10]]), names(&[0, 0, 0, 0, 1, 2]));
    assert_eq!(three(&[&[9], &[9], &[9]]), names(&[0, 0, 0, 1, 0, 0]));
}

#[test]
fn entries_not_in_use_are_not_named() {
    let mut register = register_of(&[&[1], &[2], &[3]], 3);
    register[3] = 2;
    assert_eq!(built(&register, 3), names(&[0, 1, 2, 0, 0, 0]));
}

#[test]
fn building_is_refused_for_the_register_and_then_for_the_length() {
    let answer = |register: &[u8], length: usize| {
        let mut index = vec![0xEE; length];
        let number = build_index(register, &mut index);
        assert!(number == 0 || index.iter().all(|byte| *byte == 0xEE));
        number
    };
    let register = register_of(&[&[1]], 3);
    assert_eq!([0, 20, 23, 24, 25, 28].map(|length| answer(&register, length)), [12, 12, 12, 0, 12, 12]);
    assert_eq!(
        (answer(&register[..4 + 44 * 3 - 1], 24), answer(&register[..3], 0), answer(&[], 0)),
        (4, 4, 4)
    );
    let stated = |used: u8| answer(&[&[0, 0, 0, used], &register[4..]].concat(), 24);
    assert_eq!([0, 3, 4, 255].map(stated), [0, 0, 4, 4]);
    assert_eq!((answer(&[0; 4], 0), answer(&[0; 4], 8), answer(&[0, 0, 0, 1], 0)), (0, 12, 4));
    assert_eq!(answer(&vec![0; 4 + 44 * 60_000], 480_000), 0);
    assert_eq!((answer(&vec![0; 4 + 44 * 60_001], 480_008), answer(&vec![0; 4 + 44 * 60_001], 0)), (4, 4));
}

#[test]
fn a_judgement_counts_every_slot_it_reads() {
    // D1 reads slot 1, T1 slot 0, T2 slot 1, and D1 is added behind T2, which takes two
    assert_eq!(judged(&payments(&["T1", "T2"])), (5, names(&[1, 2, 3, 0, 0, 0, 0, 0])));
    // T9 starts where T1 does and reads two, and so does D1 behind it; T1 the second time is found at once
    assert_eq!(judged(&payments(&["T1", "T9", "T1"])), (7, names(&[1, 2, 3, 0, 0, 0, 0, 0])));
    // T8 and T0 start at the last slot, so T0 goes on at the first
    assert_eq!(judged(&payments(&["T8", "T0"])), (5, names(&[2, 3, 0, 0, 0, 0, 0, 1])));
    // T0 the second time is found round the end
    assert_eq!(judged(&payments(&["T8", "T0", "T0"])), (7, names(&[2, 3, 0, 0, 0, 0, 0, 1])));
}

#[test]
fn what_is_rejected_is_searched_and_not_added() {
    // a bad amount: the message's search counts, and the bulk without an accepted message is not searched again
    let mut call = payments(&["T1"]);
    call.sheet[4 + 65 + 4 + 46..][..8].fill(0);
    assert_eq!(judged(&call), (2, names(&[0; 8])));
    // a bulk that falls
    let mut call = payments(&["T1", "T9"]);
    call.sheet[4 + MARKS] = 0;
    assert_eq!(judged(&call), (3, names(&[0; 8])));
    // no messages
    assert_eq!(judged(&payments(&[])), (1, names(&[0; 8])));
    // no bulks
    let none = Call { register: register(&[], 4), index: names(&[0; 8]), ..support::call(&[]) };
    assert_eq!(judged(&none), (0, names(&[0; 8])));
    // no slots
    assert_eq!(judged(&support::call(&[])), (0, Vec::new()));
}

#[test]
fn entries_that_stand_are_found() {
    let standing = [entry("AAAALV22", "T1", 1), entry("AAAALV22", "T9", 1), entry("AAAALV22", "D1", 2)];
    // with 16 slots T1 starts at 0, T9 at 8 and D1 at 1; bulk and message are found where they start
    let index = names(&[1, 3, 0, 0, 0, 0, 0, 0, 2, 0, 0, 0, 0, 0, 0, 0]);
    let call = Call { register: register(&standing, 8), index, ..payments(&["T9"]) };
    assert_eq!(judged(&call), (2, call.index.clone()));
    // with 8 slots T9 stands behind T1: D1 reads it and the empty slot behind it, T9 reads T1 and itself
    let index = names(&[1, 2, 0, 0, 0, 0, 0, 0]);
    let call = Call { register: register(&standing[..2], 4), index, ..payments(&["T9"]) };
    assert_eq!(judged(&call), (4, call.index.clone()));
}

#[test]
fn an_index_of_another_length_is_12() {
    for (length, number) in [(0, 12), (28, 12), (31, 12), (32, 0), (33, 12), (36, 12), (64, 12)] {
        let call = Call { index: vec![0; length], ..payments(&["T1", "T2"]) };
        assert_eq!(by_index(&call).0.number, number, "{length}");
    }
}

#[test]
fn an_index_of_another_register_is_13() {
    let standing = [entry("AAAALV22", "T1", 1), entry("AAAALV22", "T1", 1), entry("AAAALV22", "T9", 1)];
    let call = Call { register: register(&standing, 8), ..payments(&["T2"]) };
    // of 16 slots T1 takes 0 and T9 takes 8
    let at = |names: &[(usize, u32)]| {
        let mut slots = [0; 16];
        names.iter().for_each(|(slot, name)| slots[*slot] = *name);
        by_index(&with_index(call.clone(), &slots)).0.number
    };
    assert_eq!(at(&[(0, 1), (8, 3)]), 0);
    let wrong: [&[(usize, u32)]; 12] = [
        &[],
        &[(0, 1)],
        &[(8, 3)],
        &[(0, 2), (8, 3)],
        &[(0, 1), (1, 2), (8, 3)],
        &[(0, 1), (8, 3), (9, 4)],
        &[(0, 1), (8, 3), (9, 3)],
        &[(0, 3), (8, 1)],
        &[(1, 1), (9, 3)],
        &[(0, 1), (9, 3)],
        &[(0, 1), (8, 3 + (1 << 24))],
        &[(0, 1), (8, u32::MAX)],
    ];
    wrong.into_iter().for_each(|names| assert_eq!(at(names), 13, "{names:?}"));
    assert_eq!(by_index(&with_index(call.clone(), &[1; 16])).0.number, 13);
}

#[test]
fn refusals_12_and_13_stand_between_4_and_5() {
    let good = payments(&["T1", "T2"]);
    let wrong = [Vec::new(), names(&[1, 0, 0, 0, 0, 0, 0, 0])];
    for (index, number) in wrong.into_iter().zip([12, 13]) {
        let call = Call { index, ..good.clone() };
        let at = |call: Call| by_index(&call).0.number;
        assert_eq!(at(call.clone()), number);
        assert_eq!(at(Call { date: 0, ..call.clone() }), 1);
        assert_eq!(at(Call { table: vec![0; 3], ..call.clone() }), 2);
        assert_eq!(at(Call { positions: vec![0; 23], ..call.clone() }), 3);
        let mut register = call.register.clone();
        register[3] = 5;
        assert_eq!(at(Call { register, ..call.clone() }), 4);
        assert_eq!(at(Call { register: call.register[..4 + 44 * 4 - 1].to_vec(), ..call.clone() }), 4);
        assert_eq!(at(Call { sheet: Vec::new(), ..call.clone() }), number);
        assert_eq!(at(Call { report: Vec::new(), ..call.clone() }), number);
        let mut kind = call.clone();
        kind.sheet[4 + KIND] = 2;
        assert_eq!(at(kind), number);
        assert_eq!(at(Call { positions: [vec![127], vec![0; 23]].concat(), ..call.clone() }), number);
    }
    // a wrong length comes before wrong names, which an index of another length always has
    assert_eq!(by_index(&Call { index: vec![1; 28], ..good.clone() }).0.number, 12);
    assert_eq!(by_index(&Call { sheet: Vec::new(), ..good.clone() }).0.number, 5);
    assert_eq!(by_index(&Call { report: Vec::new(), ..good }).0.number, 11);
}

#[test]
fn generated_calls_read_no_more_a_search_than_all_entries_left_and_one() {
    let mut tried = [0; 14];
    for case in 0..4_000 {
        let call = generate::call(&mut Random::of(5, case));
        let (answer, after) = by_index(&call);
        tried[answer.number as usize] += 1;
        if [12, 13].contains(&answer.number) {
            continue;
        }
        judged(&call);
        if answer.number == 0 {
            let bulks = read_bulks(&mut &call.sheet[..]).unwrap();
            let searches: usize = bulks.iter().map(|bulk| 2 + bulk.messages.len()).sum();
            let most = searches as u128 * (value(&after.register[..4]) + 1);
            assert!(u128::from(answer.slots) <= most, "case {case}");
        }
    }
    assert!(tried.iter().enumerate().all(|(number, times)| number == 6 || *times > 9), "{tried:?}");
}

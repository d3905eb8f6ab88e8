//! What the program `judge` prints.

mod support;

use compare::program::{printed, shown};
use compare::reference::Reference;
use support::*;

fn input(date: u32, parts: [&[u8]; 3]) -> Vec<u8> {
    let framed = parts.map(|part| [number(part.len() as u128, 4), part.to_vec()].concat());
    [number(date.into(), 4), framed.concat()].concat()
}

fn prints(input: &[u8]) -> String {
    printed(input, &mut Reference).unwrap()
}

#[test]
fn the_whole_case() {
    let messages = [
        payment("T1", "BBBBLV22RIX", 100),
        payment("T2", "BBBBLV22KUL", 200),
        payment("T1", "BBBBLV22XXX", 300),
    ];
    let call = one_bulk(&messages);
    let input = input(DATE, [&call.table, &register(&[], 8), &call.sheet]);
    assert_eq!(
        prints(&input),
        "B D1 P 0 1 100 2 500\nM T1 A 0\nM T2 R 8\nM T1 R 2\nP 0 -100\nP 1 100\n= 2\n"
    );
}

#[test]
fn a_refusal_prints_its_number() {
    let empty = [0; 4];
    assert_eq!(prints(&input(DATE, [&empty, &empty, &empty])), "= 0\n");
    assert_eq!(prints(&input(20260631, [&empty, &empty, &empty])), "X 1\n");
    assert_eq!(prints(&input(DATE, [&empty[1..], &empty, &empty])), "X 2\n");
    assert_eq!(prints(&input(DATE, [&empty, &empty[1..], &empty])), "X 4\n");
    assert_eq!(prints(&input(DATE, [&empty, &empty, &empty[1..]])), "X 5\n");
}

#[test]
fn another_shape_prints_99() {
    let good = input(DATE, [&[0; 4], &[0; 4], &[0; 4]]);
    for length in 0..good.len() {
        assert_eq!(prints(&good[..length]), "X 99\n", "{length}");
    }
    assert_eq!(prints(&[good, vec![0]].concat()), "X 99\n");
}

#[test]
fn no_part_is_longer_than_16384() {
    for place in 0..3 {
        for (length, refusal) in [(16_384, [2, 4, 5][place]), (16_385, 99)] {
            let long = vec![0; length];
            let mut parts: [&[u8]; 3] = [&[0; 4]; 3];
            parts[place] = &long;
            assert_eq!(prints(&input(DATE, parts)), format!("X {refusal}\n"), "{place}");
        }
    }
}

#[test]
fn three_full_parts_and_one_byte_more() {
    let full = [0; 16_384];
    let longest = input(DATE, [&full, &full, &full]);
    assert_eq!(longest.len(), 49_168);
    assert_eq!(prints(&longest), "X 2\n");
    assert_eq!(prints(&[longest, vec![0]].concat()), "X 99\n");
}

#[test]
fn identifiers_as_shown() {
    let show = |bytes: &[u8]| {
        let mut field = [b' '; 35];
        field[..bytes.len()].copy_from_slice(bytes);
        shown(&field)
    };
    assert_eq!(show(b""), "_");
    assert_eq!(show(b" A  B "), "_A__B");
    assert_eq!(show(b"A_\0*\xFF\tB"), "A*****B");
    assert_eq!(show(b"aZ09/-?:().,'+"), "aZ09/-?:().,'+");
    assert_eq!(show(&[b'A'; 35]), "A".repeat(35));
}

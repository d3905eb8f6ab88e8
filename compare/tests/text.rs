//! Case texts: there and back, and errors that name their line.

use compare::random::Random;
use compare::{generate, text};

fn there_and_back(bytes: &[u8]) {
    let text = text::write(bytes);
    assert_eq!(text::read(&text).as_deref(), Ok(bytes), "{text}");
}

#[test]
fn generated_inputs_go_there_and_back() {
    for case in 0..3_000 {
        let random = &mut Random::of(7, case);
        let call = generate::call(random);
        there_and_back(&generate::input(random, &call));
    }
}

#[test]
fn any_bytes_go_there_and_back() {
    for case in 0..500 {
        let random = &mut Random::of(8, case);
        let length = random.below(120);
        there_and_back(&random.bytes(length));
        // the outer shape of an input around parts of no sense
        let mut bytes = vec![0; 4];
        for _ in 0..3 {
            let length = random.below(100);
            bytes.extend((length as u32).to_be_bytes());
            bytes.extend(random.bytes(length));
        }
        there_and_back(&bytes);
    }
}

#[test]
fn the_lines_of_a_sheet_are_those_of_a_case() {
    for case in 0..500 {
        let call = generate::call(&mut Random::of(9, case));
        for date in [None, Some(call.date)] {
            let lines = text::write_sheet(&call.sheet, date);
            let bytes =
                text::read(&format!("date {}\n{lines}", call.date)).expect("the lines are well formed");
            // date, an empty table, an empty register, and the sheet behind its length
            assert_eq!(bytes[4 + 8 + 8 + 4..], call.sheet, "{lines}");
        }
    }
}

#[test]
fn a_text_gives_these_bytes() {
    let bytes = text::read("date 20260615\nrow AB_C 1 2 5\nregister 1\nentry S I\\x00 1\nbulks 0\n").unwrap();
    let table = [&[0, 0, 0, 24, 0, 0, 0, 1][..], b"AB C       ", &[0, 0, 0, 1, 0, 0, 0, 2, 5]].concat();
    let entry = [b"S       I\0".to_vec(), vec![b' '; 33], vec![1]].concat();
    let register = [&[0, 0, 0, 48, 0, 0, 0, 1][..], &entry].concat();
    let sheet = [0, 0, 0, 4, 0, 0, 0, 0];
    assert_eq!(bytes, [&20260615u32.to_be_bytes()[..], &table, &register, &sheet].concat());
}

#[test]
fn what_is_left_out_has_its_usual_value() {
    let short = "date 20260615\nbulk D1 AAAALV22\nmessage T1 BBBBLV22XXX 5\nmessage T2 BBBBLV22XXX 6\n";
    let long = "date 20260615\nbulk D1 AAAALV22 kind 1 number 2 sum 11 date 20260615 marks 3 count 2\n\
        message T1 BBBBLV22XXX 5 original 0 reason _ name _\nmessage T2 BBBBLV22XXX 6\nrows 0\nregister 0 used 0\n";
    assert_eq!(text::read(short), text::read(long));
    assert!(text::read(short).is_ok());
}

#[test]
fn errors_name_their_line() {
    let wrong = [
        ("", "line 0: the text ends without a date line"),
        ("raw table 00\n", "line 1: the text ends without a date line"),
        ("date 1\n# nothing\nrwo A 1 2 3\n", "line 3: rwo is no kind of line"),
        ("date 1\nrow A 1 2\n", "line 2: kind is missing"),
        ("date 1\nrow A 1 2 3 4\n", "line 2: 4 is one word too many"),
        ("date 1\nrow ABCDEFGHIJKL 1 2 3\n", "line 2: BIC: ABCDEFGHIJKL is longer than its 11 bytes"),
        ("date 1\nrow A\\x4 1 2 3\n", "line 2: BIC: in A\\x4 a \\ is not followed by x and two hex digits"),
        ("date 1\nrow A 1 2 256\n", "line 2: kind: 256 is no number that fits in 1 bytes"),
        ("date 1\nmessage T1 B 5\n", "line 2: a message stands before any bulk"),
        ("date 1\ndate 1\n", "line 2: this is said twice"),
        ("date 1\nraw table 0\n", "line 2: 0 is not pairs of hex digits"),
        ("date 1\ncut sheet 5\n", "line 2: sheet is too short"),
        ("date 1\nbulk D S size 4\n", "line 2: size is no setting of a bulk"),
        ("date 1\nregister 0\nentry S I 1\n", "line 3: a register for 0 is given 1 entries"),
        (
            "date 1\nbulk D S\nmessage A B 18446744073709551615\nmessage B B 1\n",
            "line 2: the sum passes eight bytes and must be stated",
        ),
    ];
    for (text, why) in wrong {
        assert_eq!(text::read(text), Err(why.to_string()), "{text}");
    }
}

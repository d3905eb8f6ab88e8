//! The texts that are made for the readers, and the way to a reader behind a server.

use std::path::Path;

use compare::archive::Archive;
use compare::documents::checks::{is_met, means_its_fields, same_reading, TextReader};
use compare::documents::{damaged, good, soup, wrong};
use compare::random::Random;
use compare::reader::read;

const CASES: u64 = 200;

#[test]
fn spellings_mean_their_fields() {
    for case in 0..CASES {
        let good = good(&mut Random::of(1, case));
        means_its_fields(&good).unwrap_or_else(|why| panic!("{why}{}", good.text.escape_ascii()));
    }
}

#[test]
fn one_thing_wrong_is_met_at_its_place() {
    for wrong in (0..CASES).filter_map(|case| wrong(&mut Random::of(2, case))) {
        is_met(&wrong).unwrap_or_else(|why| panic!("{why}: {}", wrong.text.escape_ascii()));
    }
}

/// Each of the numbers is met by some text.
#[test]
fn damage_is_met_in_every_way() {
    let mut met = [0; 25];
    for case in 0..CASES {
        let random = &mut Random::of(3, case);
        let text = good(random).text;
        for text in [damaged(random, &text), soup(random), wrong(random).map_or(text, |wrong| wrong.text)] {
            met[read(&text, usize::MAX).number as usize] += 1;
        }
    }
    assert!([0, 21, 22, 23].iter().all(|number| met[*number] > 0), "{met:?}");
}

#[test]
fn a_reader_behind_a_server_is_the_reader() {
    let mut server = Archive::at(Path::new(env!("CARGO_BIN_EXE_read-server")));
    for case in 0..CASES / 4 {
        let random = &mut Random::of(4, case);
        let text = good(random).text;
        let needed = read(&text, usize::MAX).sheet.len();
        for (text, length) in
            [(&text, needed), (&text, needed + 7), (&text, needed - 1), (&damaged(random, &text), 9)]
        {
            let space = random.bytes(length);
            assert!(same_reading(&mut server, text, &space).is_ok());
        }
    }
}

/// Answers as the second reader does, save for one thing.
struct Other(fn(&mut u32, &mut u64, &mut u64, &mut [u8]));

impl TextReader for Other {
    fn read(&mut self, text: &[u8], space: &mut [u8]) -> Result<compare::documents::checks::Answer, String> {
        let mut answer = compare::documents::checks::Second.read(text, space)?;
        (self.0)(&mut answer.number, &mut answer.length, &mut answer.at, space);
        Ok(answer)
    }
}

#[test]
fn every_difference_is_seen() {
    let text = good(&mut Random::of(5, 0)).text;
    let needed = read(&text, usize::MAX).sheet.len();
    let space = vec![7; needed + 3];
    let differs = |change| same_reading(&mut Other(change), &text, &space).is_err();
    assert!(!differs(|_, _, _, _| ()));
    assert!(differs(|number, _, _, _| *number += 1));
    assert!(differs(|_, length, _, _| *length += 1));
    assert!(differs(|_, _, at, _| *at += 1));
    assert!(differs(|_, _, _, space| space[0] ^= 1));
    assert!(differs(|_, _, _, space| space[space.len() - 1] ^= 1));
}

//! BICs that crowd around one slot, for a judge that finds rows by slots.

use std::sync::LazyLock;

use super::Maker;
use crate::random::Random;
use crate::records::{padded, Bic};

/// The slots, a prime number of them, and the base in which a BIC's bytes are the digits of a number.
pub const SLOTS: usize = 14_983;
pub const LAST: usize = SLOTS - 1;
const BASE: usize = 257;
/// What turns multiplying by the base back.
const INVERSE: usize = 583;

/// What a BIC may have: at its first six places a letter, then also a digit.
const CHARACTERS: &[u8; 36] = b"ABCDEFGHIJKLMNOPQRSTUVWXYZ0123456789";
const LETTERS: usize = 26;

/// The slot at which the search for a BIC starts.
pub fn start(bic: &Bic) -> usize {
    bic.iter().fold(0, |at, byte| (at * BASE + usize::from(*byte)) % SLOTS)
}

/// For each remainder every three characters that are worth it as the last ones.
static ENDS: LazyLock<Vec<Vec<[u8; 3]>>> = LazyLock::new(|| {
    let mut ends = vec![Vec::new(); SLOTS];
    for number in 0..CHARACTERS.len().pow(3) {
        let end = [1296, 36, 1].map(|worth| CHARACTERS[number / worth % 36]);
        let mut bic = [0; 11];
        bic[8..].copy_from_slice(&end);
        ends[start(&bic)].push(end);
    }
    ends
});

/// This BIC with each three characters from the place on that make it start at the slot.
pub fn starting_at(slot: usize, mut bic: Bic, place: usize) -> impl Iterator<Item = Bic> {
    bic[place..place + 3].fill(0);
    let missing = (slot + SLOTS - start(&bic)) % SLOTS;
    let worth = (place..8).fold(missing, |worth, _| worth * INVERSE % SLOTS);
    let letters = 6usize.saturating_sub(place).min(3);
    let fits = move |three: &&[u8; 3]| three[..letters].iter().all(u8::is_ascii_uppercase);
    ENDS[worth].iter().filter(fits).map(move |three| {
        bic[place..place + 3].copy_from_slice(three);
        bic
    })
}

/// A number in so many letters.
pub fn spelt(mut number: usize, letters: usize) -> Vec<u8> {
    let mut text = vec![b'A'; letters];
    for letter in text.iter_mut().rev() {
        *letter = CHARACTERS[number % LETTERS];
        number /= LETTERS;
    }
    text
}

/// Head offices that start at the slot, from one number on.
fn banks_from(number: usize, slot: usize) -> impl Iterator<Item = Bic> {
    let front = |number| padded(&[&spelt(number, 5), &b"A22XXX"[..]].concat());
    (number..).flat_map(move |number| starting_at(slot, front(number), 5))
}

/// Head offices that start at the slot.
pub fn banks_at(slot: usize) -> impl Iterator<Item = Bic> {
    banks_from(0, slot)
}

/// Head offices and branches that start at the slot.
pub fn bics_at(slot: usize) -> impl Iterator<Item = Bic> {
    banks_at(slot).flat_map(move |bank| starting_at(slot, bank, 8))
}

impl Maker<'_> {
    /// Some banks at a slot, often the last, with branches there or at the next, and BICs there that differ from a bank's in three
    /// characters. The first is a head office.
    pub fn crowd_of_bics(random: &mut Random) -> Vec<Bic> {
        let any = random.below(SLOTS);
        let slot = random.pick(&[LAST, LAST, LAST - 1, 0, any]);
        let number = random.below(1_000_000);
        let mut crowd = Vec::new();
        for bank in banks_from(number, slot).take(3) {
            let (near, place) = ((slot + random.below(2)) % SLOTS, random.below(9));
            let others = starting_at(near, bank, 8).chain(starting_at(slot, bank, place));
            crowd.push(bank);
            crowd.extend(others.filter(|bic| *bic != bank).take(3));
        }
        crowd
    }
}

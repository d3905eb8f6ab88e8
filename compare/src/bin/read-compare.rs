//! Tries the second reader on generated texts: against the fields they were written from, against expat, and, where
//! a server is given, the archive's reader against it. Stops at the first that differs.
//!
//!     read-compare [N [SEED]] [--server PATH] [--shrink SECONDS]

use std::path::PathBuf;
use std::process::ExitCode;
use std::time::{Duration, Instant, SystemTime, UNIX_EPOCH};

use compare::archive::Archive;
use compare::call::Trouble;
use compare::documents::checks::{is_met, means_its_fields, same_reading, well_formed, TextReader};
use compare::documents::small::smallest;
use compare::documents::{damaged, good, large, short, soup, sweep, wrong, Good};
use compare::expat;
use compare::random::Random;
use compare::reader::read;

const USAGE: &str = "usage: read-compare [N [SEED]] [--server PATH] [--shrink SECONDS]
  N          cases, 5000 if not given        SEED       the clock's if not given
  --server   what build-server made of an archive with a reader, which is then compared too
  --shrink   how long to look for a smaller text that fails, 10 if not given";

/// How many damaged texts are made of each good one, and how many small ones besides.
const DAMAGED: usize = 3;
const SOUPS: usize = 6;
/// One case in so many also cuts a text off at each byte, and one has a large text.
const EACH_CUT: u64 = 100;
const EACH_LARGE: u64 = 2_500;

struct Options {
    cases: u64,
    seed: u64,
    server: Option<PathBuf>,
    shrink: Duration,
}

fn options() -> Option<Options> {
    let clock = SystemTime::now().duration_since(UNIX_EPOCH).map_or(1, |time| time.as_millis() as u64);
    let (mut server, mut shrink, mut numbers) = (None, 10, Vec::new());
    let mut words = std::env::args().skip(1);
    while let Some(word) = words.next() {
        match word.as_str() {
            "--server" => server = Some(words.next()?.into()),
            "--shrink" => shrink = words.next()?.parse().ok()?,
            number => numbers.push(number.parse().ok()?),
        }
    }
    let (cases, seed) = match numbers[..] {
        [] => (5_000, clock),
        [cases] => (cases, clock),
        [cases, seed] => (cases, seed),
        _ => return None,
    };
    Some(Options { cases, seed, server, shrink: Duration::from_secs(shrink) })
}

struct Failure {
    why: Trouble,
    text: Vec<u8>,
}

#[derive(Default)]
struct Tried {
    texts: u64,
    /// By the number answered: 0, then 21 to 24.
    answers: [u64; 5],
    /// What expat calls well formed, and what not.
    expat: [u64; 2],
    /// Readings by the archive.
    archive: u64,
}

struct Comparison {
    archive: Option<Archive>,
    shrink: Duration,
    tried: Tried,
}

impl Comparison {
    /// What has to hold of any text.
    fn text(&mut self, text: &[u8], random: &mut Random) -> Result<(), Failure> {
        let answer = read(text, usize::MAX);
        self.tried.texts += 1;
        self.tried.answers[answer.number.saturating_sub(20) as usize] += 1;

        let other = expat::documents(text);
        self.tried.expat[usize::from(other.is_err())] += 1;
        if well_formed(text, other).is_err() {
            let check = |text: &[u8]| well_formed(text, expat::documents(text));
            let text = smallest(text.to_vec(), self.shrink, |text| check(text).is_err());
            return Err(Failure { why: check(&text).expect_err("the smallest text fails"), text });
        }
        self.archive_reads(text, answer.sheet.len(), random)
    }

    /// In a space that is long enough, just so, or too short.
    fn archive_reads(&mut self, text: &[u8], needed: usize, random: &mut Random) -> Result<(), Failure> {
        let Some(archive) = &mut self.archive else { return Ok(()) };
        for length in [needed + random.pick(&[0, 1, 40, 300]), random.below(needed + 1)] {
            self.tried.archive += 1;
            let space = random.bytes(length);
            if same_reading(archive, text, &space).is_err() {
                let mut check = |text: &[u8]| same_reading(archive, text, &space);
                let text = smallest(text.to_vec(), self.shrink, |text| check(text).is_err());
                return Err(Failure { why: check(&text).expect_err("the smallest text fails"), text });
            }
        }
        Ok(())
    }

    fn good(&mut self, good: &Good, random: &mut Random) -> Result<(), Failure> {
        means_its_fields(good).map_err(|why| Failure { why, text: good.text.clone() })?;
        self.text(&good.text, random)
    }

    /// A text cut off at every byte.
    fn cuts(&mut self, random: &mut Random) -> Result<(), Failure> {
        let text = short(random);
        (0..text.len()).try_for_each(|end| self.text(&text[..end], random))
    }

    fn case(&mut self, random: &mut Random) -> Result<(), Failure> {
        let good = good(random);
        self.good(&good, random)?;
        for _ in 0..DAMAGED {
            let text = damaged(random, &good.text);
            self.text(&text, random)?;
        }
        if let Some(wrong) = wrong(random) {
            is_met(&wrong).map_err(|why| Failure { why, text: wrong.text.clone() })?;
            self.text(&wrong.text, random)?;
            let text = damaged(random, &wrong.text);
            self.text(&text, random)?;
        }
        for _ in 0..SOUPS {
            let text = soup(random);
            self.text(&text, random)?;
        }
        Ok(())
    }
}

/// Everything, up to the first failure.
fn all(comparison: &mut Comparison, cases: u64, seed: u64) -> Result<(), (String, Failure)> {
    for (index, text) in sweep::texts().enumerate() {
        // numbers from the far end, which no generated case has
        let random = &mut Random::of(seed, u64::MAX - index as u64);
        comparison.text(&text, random).map_err(|failure| (format!("text {index} of the sweep"), failure))?;
    }
    for case in 0..cases {
        let random = &mut Random::of(seed, case);
        let name = |failure| (format!("case {case}"), failure);
        comparison.case(random).map_err(name)?;
        if case % EACH_CUT == 0 {
            comparison.cuts(random).map_err(name)?;
        }
        if case % EACH_LARGE == 0 {
            comparison.good(&large(random), random).map_err(name)?;
        }
    }
    Ok(())
}

fn main() -> ExitCode {
    let Some(Options { cases, seed, server, shrink }) = options() else {
        eprintln!("{USAGE}");
        return ExitCode::from(2);
    };
    let mut archive = server.as_deref().map(Archive::at);
    // a server that cannot read at all is no text to make small
    if let Some(Err(why)) = archive.as_mut().map(|archive| archive.read(b"", &mut [])) {
        eprintln!("{why}");
        return ExitCode::from(2);
    }
    println!("seed {seed}");
    let start = Instant::now();
    let mut comparison = Comparison { archive, shrink, tried: Tried::default() };
    if let Err((place, Failure { why, text })) = all(&mut comparison, cases, seed) {
        println!("FAILED at {place}, seed {seed}\n{why}\nthe text, its bytes as in a string:");
        println!("\"{}\"", text.escape_ascii());
        return ExitCode::FAILURE;
    }
    let Tried { texts, answers: [good, form, deep, lack, _], expat: [well, ill], archive } = comparison.tried;
    println!("{texts} texts: {good} become sheets, answered 21 are {form}, 22 {deep}, 23 {lack}");
    println!("by expat {well} are well formed, {ill} are not; {archive} readings by the archive");
    println!("no difference found in {:.1} s", start.elapsed().as_secs_f64());
    ExitCode::SUCCESS
}

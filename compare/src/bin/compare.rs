//! Compares the archive with the reference on generated cases; stops at the first that differs.
//!
//!     compare [N [SEED]] --server PATH [--program PATH] [--full K] [--shrink SECONDS]

use std::path::PathBuf;
use std::process::ExitCode;
use std::time::{Duration, Instant, SystemTime, UNIX_EPOCH};

use compare::archive::Archive;
use compare::call::{Call, Judge, Trouble};
use compare::checks::{
    both_outcomes, same_counts, same_days, same_judgement, same_lines, same_route, same_run, shown, shown_run,
};
use compare::program::Input;
use compare::random::Random;
use compare::{cut, generate, shrink, text};
use cut::ByIndex;
use generate::days;
use generate::limits::{self, LIMITS};
use generate::routes::ROUTES;
use generate::sweeps::{self, SWEEPS};

const USAGE: &str = "usage: compare [N [SEED]] --server PATH [--program PATH] [--full K] [--shrink SECONDS]
  N          cases, 20000 if not given       SEED       the clock's if not given
  --server   what build-server made          --program  the program judge, tried on a sample
  --full     cases of full size, 1 if not given
  --shrink   how long to look for a smaller case that fails, 30 if not given";

struct Options {
    cases: u64,
    seed: u64,
    server: PathBuf,
    program: Option<PathBuf>,
    full: u64,
    shrink: Duration,
}

fn options() -> Option<Options> {
    let clock = SystemTime::now().duration_since(UNIX_EPOCH).map_or(1, |time| time.as_millis() as u64);
    let (mut server, mut program, mut full, mut shrink, mut numbers) = (None, None, 1, 30, Vec::new());
    let mut words = std::env::args().skip(1);
    while let Some(word) = words.next() {
        match word.as_str() {
            "--server" => server = Some(words.next()?.into()),
            "--program" => program = Some(words.next()?.into()),
            "--full" => full = words.next()?.parse().ok()?,
            "--shrink" => shrink = words.next()?.parse().ok()?,
            number => numbers.push(number.parse().ok()?),
        }
    }
    let (cases, seed) = match numbers[..] {
        [] => (20_000, clock),
        [cases] => (cases, clock),
        [cases, seed] => (cases, seed),
        _ => return None,
    };
    let shrink = Duration::from_secs(shrink);
    Some(Options { cases, seed, server: server?, program, full, shrink })
}

/// Why a case failed, and the smallest case found that fails too; none of a question about days, which says it all.
struct Failure {
    why: String,
    case: String,
}

/// What has been tried, for the last line.
#[derive(Default)]
struct Tried {
    /// Calls by the number answered, by the plain judge and by the index.
    answers: [u64; 14],
    indexed: [u64; 14],
    cuts: u64,
    runs: u64,
    routes: u64,
    days: u64,
    programs: u64,
}

/// What has to hold over a sheet cut in two.
type CutCheck = fn(&mut Archive, &Call) -> Result<(), Trouble>;

struct Comparison {
    archive: Archive,
    program: Option<PathBuf>,
    shrink: Duration,
    tried: Tried,
}

impl Comparison {
    /// The smallest call found that still fails the check, and why it does.
    fn smallest(
        &mut self,
        call: &Call,
        check: impl Fn(&mut Archive, &Call) -> Result<(), Trouble>,
    ) -> (Call, Trouble) {
        let archive = &mut self.archive;
        let small = shrink::call(call.clone(), self.shrink, |call| check(archive, call).is_err());
        let why = check(archive, &small).expect_err("the smallest call fails");
        (small, why)
    }

    fn judgement(&mut self, call: &Call) -> Result<(), Failure> {
        let outcomes = same_judgement(&mut self.archive, call).map_err(|_| {
            let (small, why) = self.smallest(call, |archive, call| same_judgement(archive, call).map(drop));
            let outcomes = both_outcomes(&mut self.archive, &small);
            Failure { why: format!("{why}\n{outcomes}"), case: shown(&small) }
        })?;
        self.tried.answers[outcomes.plain.0.number as usize] += 1;
        self.tried.indexed[outcomes.indexed.0.number as usize] += 1;
        Ok(())
    }

    /// A case at a limit, as it is and damaged twice: which refusal comes first matters there too.
    fn limit(&mut self, call: &Call, random: &mut Random) -> Result<(), Failure> {
        self.judgement(call)?;
        self.judgement(&generate::damaged(random, call))?;
        self.judgement(&generate::damaged(random, call))
    }

    fn cuts(&mut self, call: &Call, check: CutCheck) -> Result<(), Failure> {
        self.tried.cuts += 1;
        check(&mut self.archive, call).map_err(|_| {
            let (small, why) = self.smallest(call, check);
            Failure { why, case: shown(&small) }
        })
    }

    /// The files of a run agree with the reference in any case; what they come to is asked of one of the two judges.
    fn run(&mut self, random: &mut Random, by_index: bool) -> Result<(), Failure> {
        self.tried.runs += 1;
        let run = generate::run(random);
        let archive = &mut self.archive;
        let mut check = |run: &cut::Run| {
            match by_index {
                true => cut::run(&mut ByIndex(archive), run),
                false => cut::run(archive, run),
            }?;
            same_run(archive, run)
        };
        check(&run).map_err(|_| {
            let small = shrink::run(run, self.shrink, |run| check(run).is_err());
            let why = check(&small).expect_err("the smallest run fails");
            Failure { why, case: shown_run(&small) }
        })
    }

    fn route(&mut self, date: u32, table: &[u8], bic: &[u8]) -> Result<(), Failure> {
        self.tried.routes += 1;
        same_route(&mut self.archive, date, table, bic).map_err(|_| {
            // a lookup reads nothing else
            let call = Call { date, table: table.to_vec(), ..Input::default().call() };
            let check = |archive: &mut Archive, call: &Call| same_route(archive, call.date, &call.table, bic);
            let (small, why) = self.smallest(&call, check);
            Failure { why: format!("lookup of \"{}\": {why}", bic.escape_ascii()), case: shown(&small) }
        })
    }

    fn routes(&mut self, call: &Call, random: &mut Random) -> Result<(), Failure> {
        let table = &call.table;
        (0..4).try_for_each(|_| self.route(call.date, table, &generate::lookup_bic(random, table)))
    }

    /// Every date and many pairs of dates, so many at a time.
    fn days(&mut self, random: &mut Random) -> Result<(), Failure> {
        const AT_ONCE: usize = 1 << 14;
        let (dates, pairs): (Vec<u32>, _) = (days::dates().collect(), days::pairs(random));
        self.tried.days = (2 * dates.len() + pairs.len()) as u64;
        let archive = &mut self.archive;
        dates
            .chunks(AT_ONCE)
            .try_for_each(|dates| same_days(archive, dates))
            .and_then(|()| pairs.chunks(AT_ONCE).try_for_each(|pairs| same_counts(archive, pairs)))
            .map_err(|why| Failure { why, case: String::new() })
    }

    fn lines(&mut self, call: &Call, random: &mut Random) -> Result<(), Failure> {
        let Some(program) = &self.program else { return Ok(()) };
        self.tried.programs += 1;
        let input = generate::input(random, call);
        let Err(why) = same_lines(program, &input) else { return Ok(()) };
        let Some(read) = Input::read(&input) else { return Err(Failure { why, case: text::write(&input) }) };
        let small = shrink::call(read.call(), self.shrink, |call| {
            same_lines(program, &Input::of(call).bytes()).is_err()
        });
        let input = Input::of(&small).bytes();
        let why = same_lines(program, &input).expect_err("the smaller case fails");
        Err(Failure { why, case: text::write(&input) })
    }

    /// Every case is judged; the dearer checks take turns.
    fn case(&mut self, seed: u64, index: u64) -> Result<(), Failure> {
        let random = &mut Random::of(seed, index);
        let call = generate::call(random);
        self.judgement(&call)?;
        match index % 16 {
            0 | 4 | 8 | 12 => self.cuts(&call, cut::cuts),
            5 => self.cuts(&call, |archive, call| cut::cuts(&mut ByIndex(archive), call)),
            1 | 9 => self.routes(&call, random),
            2 => self.run(random, false),
            10 => self.run(random, true),
            3 | 11 if index % 40 == 3 => self.lines(&call, random),
            _ => Ok(()),
        }
    }
}

/// The cases that are the same in every run, save for the damage.
fn fixed(options: &Options, comparison: &mut Comparison) -> Result<(), (String, Failure)> {
    for (name, call) in SWEEPS.iter().chain(&ROUTES) {
        comparison.judgement(&call()).map_err(|failure| (name.to_string(), failure))?;
    }
    for date in sweeps::dates() {
        let name = |failure| (format!("date {date}"), failure);
        comparison.judgement(&sweeps::on(date)).map_err(name)?;
        comparison.route(date, &[0; 4], b"AAAALV22XXX").map_err(name)?;
    }
    for (index, call) in sweeps::value_dates().enumerate() {
        comparison.judgement(&call).map_err(|failure| (format!("value dates, file {index}"), failure))?;
    }
    // the first of the numbers at the far end that the limits leave
    let random = &mut Random::of(options.seed, u64::MAX - LIMITS.len() as u64);
    comparison.days(random).map_err(|failure| ("open days".to_string(), failure))?;
    for (index, (name, call)) in LIMITS.iter().enumerate() {
        // numbers from the far end, which no generated case has
        let random = &mut Random::of(options.seed, u64::MAX - index as u64);
        comparison.limit(&call(), random).map_err(|failure| (name.to_string(), failure))?;
    }
    for _ in 0..options.full {
        comparison.judgement(&limits::full()).map_err(|failure| ("full size".to_string(), failure))?;
    }
    Ok(())
}

/// Everything, up to the first failure.
fn all(options: &Options, comparison: &mut Comparison) -> Result<(), (String, Failure)> {
    fixed(options, comparison)?;
    for index in 0..options.cases {
        comparison.case(options.seed, index).map_err(|failure| (format!("case {index}"), failure))?;
    }
    Ok(())
}

fn main() -> ExitCode {
    let Some(options) = options() else {
        eprintln!("{USAGE}");
        return ExitCode::from(2);
    };
    let (mut archive, program) = (Archive::at(&options.server), options.program.clone());
    // a server that cannot even refuse is no case to make small
    if let Err(why) = archive.lookup(0, &[], &[]) {
        eprintln!("{why}");
        return ExitCode::from(2);
    }
    println!("seed {}", options.seed);
    let start = Instant::now();
    let mut comparison = Comparison { archive, program, shrink: options.shrink, tried: Tried::default() };
    if let Err((place, Failure { why, case })) = all(&options, &mut comparison) {
        println!("FAILED at {place}, seed {}\n{why}", options.seed);
        if !case.is_empty() {
            println!("the smallest case found:\n{case}");
        }
        return ExitCode::FAILURE;
    }
    let Tried { answers, indexed, cuts, runs, routes, days, programs } = comparison.tried;
    let seconds = start.elapsed().as_secs_f64();
    let calls: u64 = answers.iter().sum();
    println!("{calls} calls, by number answered {answers:?}");
    println!("by the index, by number answered {indexed:?}");
    println!("{cuts} cut at every place, {runs} runs, {routes} lookups, {programs} inputs of the program");
    println!("{days} questions about open days");
    println!("no difference found in {seconds:.1} s");
    ExitCode::SUCCESS
}

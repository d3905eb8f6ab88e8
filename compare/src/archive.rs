//! The archive, called through the pipes of `server.c`, and programs built for its processor.

use std::fs::File;
use std::io::{self, BufReader, Read, Write};
use std::path::{Path, PathBuf};
use std::process::{Child, ChildStdin, ChildStdout, Command, Stdio};

use crate::call::{Answer, Call, IndexedAnswer, Judge, Outcomes, Route, Trouble};
use crate::days::{Calendar, Day};
use crate::documents::checks::{Answer as Reading, TextReader};

const JUDGE: u32 = 1;
const LOOKUP: u32 = 2;
const READ: u32 = 3;
const INDEXED: u32 = 4;
const BUILD: u32 = 5;
const OPEN_DAY: u32 = 6;
const NEXT_OPEN_DAY: u32 = 7;
const OPEN_DAYS: u32 = 8;

/// What the server answers in words: the number, four more, and whether all else was left alone.
const WORDS: usize = 6;
type Words = [u32; WORDS];

/// The four buffers of a call that are written: register, positions, report and index.
type Written<'a> = [&'a mut [u8]; 4];

/// A command for a program of this machine's or the archive's processor; the latter may need an emulator here.
pub fn command(program: &Path) -> Command {
    let foreign = std::env::consts::ARCH != "x86_64" && is_x86_64(program).unwrap_or(false);
    if foreign {
        let mut command = Command::new("qemu-x86_64");
        command.arg(program);
        return command;
    }
    Command::new(program)
}

/// Reads the machine field of the ELF header.
fn is_x86_64(program: &Path) -> io::Result<bool> {
    let mut header = [0; 20];
    File::open(program)?.read_exact(&mut header)?;
    Ok(header.starts_with(b"\x7fELF") && header[18..] == [62, 0])
}

struct Running {
    child: Child,
    calls: ChildStdin,
    answers: BufReader<ChildStdout>,
}

impl Running {
    fn start(server: &Path) -> io::Result<Running> {
        let mut child = command(server).stdin(Stdio::piped()).stdout(Stdio::piped()).spawn()?;
        let calls = child.stdin.take().expect("the pipe was asked for");
        let answers = BufReader::with_capacity(1 << 16, child.stdout.take().expect("the pipe was asked for"));
        Ok(Running { child, calls, answers })
    }

    /// Sends one call whole, with the buffers as the first function has them; for each function the answer's words come
    /// back, and the written buffers into their places.
    fn ask<const N: usize>(
        &mut self,
        functions: [u32; N],
        date: u32,
        lent: [&[u8]; 2],
        written: [Written; N],
    ) -> io::Result<[Words; N]> {
        let mut call = Vec::new();
        let functions = functions.iter().rev().fold(0, |word, function| word << 8 | function);
        let buffers = || lent.into_iter().chain(written[0].iter().map(|buffer| &**buffer));
        let words = [functions, date].into_iter().chain(buffers().map(|buffer| buffer.len() as u32));
        words.for_each(|word| call.extend(word.to_le_bytes()));
        buffers().for_each(|buffer| call.extend(buffer));
        self.calls.write_all(&call)?;

        let mut answers = [[0; WORDS]; N];
        for (answer, written) in answers.iter_mut().zip(written) {
            let mut bytes = [0; 4 * WORDS];
            self.answers.read_exact(&mut bytes)?;
            for buffer in written {
                self.answers.read_exact(buffer)?;
            }
            let words =
                bytes.chunks_exact(4).map(|word| u32::from_le_bytes(word.try_into().expect("four bytes")));
            answer.iter_mut().zip(words).for_each(|(place, word)| *place = word);
        }
        Ok(answers)
    }

    /// How the server ended, once a pipe has broken.
    fn ending(mut self) -> Trouble {
        drop(self.calls);
        match self.child.wait() {
            Ok(status) => format!("the server ended during the call ({status})"),
            Err(error) => format!("the server ended during the call ({error})"),
        }
    }
}

/// The archive behind its server. A server that a call brought down is started anew for the next.
pub struct Archive {
    server: PathBuf,
    running: Option<Running>,
}

impl Archive {
    pub fn at(server: &Path) -> Archive {
        Archive { server: server.to_path_buf(), running: None }
    }

    fn ask<const N: usize>(
        &mut self,
        functions: [u32; N],
        date: u32,
        lent: [&[u8]; 2],
        written: [Written; N],
    ) -> Result<[Words; N], Trouble> {
        let mut running = match self.running.take() {
            Some(running) => running,
            None => {
                Running::start(&self.server).map_err(|why| format!("{}: {why}", self.server.display()))?
            }
        };
        match running.ask(functions, date, lent, written) {
            Err(_) => Err(running.ending()),
            Ok(answers) => {
                self.running = Some(running);
                let intact = answers.iter().all(|answer| answer[WORDS - 1] == 1);
                intact
                    .then_some(answers)
                    .ok_or_else(|| "a byte outside the buffers to be written changed".to_string())
            }
        }
    }
}

/// The buffers of a call that may be written.
fn written(call: &mut Call) -> Written<'_> {
    [&mut call.register, &mut call.positions, &mut call.report, &mut call.index]
}

fn answer(words: &Words) -> Answer {
    Answer { number: words[0], length: halves(&words[1..]) }
}

fn indexed_answer(words: &Words) -> IndexedAnswer {
    IndexedAnswer { number: words[0], length: halves(&words[1..]), slots: halves(&words[3..]) }
}

/// A number in two words, the low half first.
fn halves(words: &[u32]) -> u64 {
    u64::from(words[1]) << 32 | u64::from(words[0])
}

impl TextReader for Archive {
    fn read(&mut self, text: &[u8], space: &mut [u8]) -> Result<Reading, Trouble> {
        let [words] = self.ask([READ], 0, [text, &[]], [[&mut [], &mut [], space, &mut []]])?;
        Ok(Reading { number: words[0], length: halves(&words[1..]), at: halves(&words[3..]) })
    }
}

/// What is answered to one question about days takes two words.
const DAY: usize = 8;

/// Dates as the server reads them.
fn dates_for(dates: &[u32]) -> Vec<u8> {
    dates.iter().flat_map(|date| date.to_le_bytes()).collect()
}

fn days_of(bytes: &[u8]) -> Vec<Day> {
    let word = |bytes: &[u8]| u32::from_le_bytes(bytes.try_into().expect("four bytes"));
    bytes.chunks_exact(DAY).map(|day| Day { number: word(&day[..4]), value: word(&day[4..]) }).collect()
}

impl Calendar for Archive {
    fn days(&mut self, dates: &[u32]) -> Result<[Vec<Day>; 2], Trouble> {
        let mut answers = [vec![0; DAY * dates.len()], vec![0; DAY * dates.len()]];
        let buffers = answers.each_mut().map(|answer| -> Written { [&mut [], &mut [], answer, &mut []] });
        self.ask([OPEN_DAY, NEXT_OPEN_DAY], 0, [&dates_for(dates), &[]], buffers)?;
        Ok(answers.map(|answer| days_of(&answer)))
    }

    fn counts(&mut self, pairs: &[[u32; 2]]) -> Result<Vec<Day>, Trouble> {
        let mut answers = vec![0; DAY * pairs.len()];
        let buffers = [&mut [][..], &mut [], &mut answers, &mut []];
        self.ask([OPEN_DAYS], 0, [&dates_for(pairs.as_flattened()), &[]], [buffers])?;
        Ok(days_of(&answers))
    }
}

impl Judge for Archive {
    fn judge(&mut self, call: &mut Call) -> Result<Answer, Trouble> {
        let Call { date, sheet, table, register, positions, report, .. } = call;
        let [words] = self.ask([JUDGE], *date, [sheet, table], [[register, positions, report, &mut []]])?;
        Ok(answer(&words))
    }

    fn judge_indexed(&mut self, call: &mut Call) -> Result<IndexedAnswer, Trouble> {
        let Call { date, sheet, table, register, positions, report, index } = call;
        let [words] = self.ask([INDEXED], *date, [sheet, table], [[register, positions, report, index]])?;
        Ok(indexed_answer(&words))
    }

    fn build_index(&mut self, register: &[u8], index: &mut [u8]) -> Result<u32, Trouble> {
        let mut register = register.to_vec();
        let [words] = self.ask([BUILD], 0, [&[], &[]], [[&mut register, &mut [], &mut [], index]])?;
        Ok(words[0])
    }

    fn lookup(&mut self, date: u32, table: &[u8], bic: &[u8]) -> Result<Route, Trouble> {
        let [words] = self.ask([LOOKUP], date, [bic, table], [[&mut [], &mut [], &mut [], &mut []]])?;
        Ok(Route { number: words[0], found: words[1], row: words[2], reachable: words[3] })
    }

    /// By one call of the server, since most of the time goes into the pipes.
    fn all(&mut self, call: &Call) -> Result<Outcomes, Trouble> {
        let [mut plain, mut indexed, mut built] = Outcomes::lent(call);
        let buffers = [written(&mut plain), written(&mut indexed), written(&mut built)];
        let answers = self.ask([JUDGE, INDEXED, BUILD], call.date, [&call.sheet, &call.table], buffers)?;
        Ok(Outcomes {
            plain: (answer(&answers[0]), plain),
            indexed: (indexed_answer(&answers[1]), indexed),
            built: (answers[2][0], built),
        })
    }
}

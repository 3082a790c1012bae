//! The list as it is made: each case is put to the Rust, written with the answer and counted.

use std::fmt;
use std::io::{self, Write};

use crate::answer::{self, Answer};
use crate::case::{Case, Task};
use crate::feed::Feed;
use crate::line;
use crate::random::Random;
use crate::words;

/// The longest output buffer that a case may have.
const MOST_ROOM: u32 = 4096;

pub struct List<W: Write> {
    out: W,
    feed: Feed,
    /// Draws the rooms: not the generator of the cases, so that the two do not disturb each other.
    rooms: Random,
    tally: Tally,
}

#[derive(Default)]
struct Tally {
    made: u64,
    steps: u64,
    runs: u64,
    steps_in_runs: u64,
    loads: u64,
    others: u64,
}

impl fmt::Display for Tally {
    fn fmt(&self, f: &mut fmt::Formatter<'_>) -> fmt::Result {
        let Tally { made, steps, runs, steps_in_runs, loads, others } = self;
        write!(f, "{made}: {steps} steps, {runs} runs of {steps_in_runs} steps in all, ")?;
        write!(f, "{loads} loads, {others} others")
    }
}

impl<W: Write> List<W> {
    pub fn new(out: W) -> io::Result<Self> {
        Ok(List {
            out,
            feed: Feed::open()?,
            rooms: Random::from_seed(u64::MAX),
            tally: Tally::default(),
        })
    }

    pub fn remark(&mut self, text: &str) -> io::Result<()> {
        writeln!(self.out, "# {text}")
    }

    /// Puts a `step`, `run` or `load` case to the Rust and writes it with the answer.
    pub fn case(&mut self, mut case: Case) -> io::Result<()> {
        let mut answer = answer::ask(&case, &mut self.feed)?;
        if case.written + answer.output.len() as u32 > MOST_ROOM {
            // More than any buffer takes: the same run again, cut short.
            case.machine.limit = case.machine.count.saturating_add(1000);
            answer = answer::ask(&case, &mut self.feed)?;
        }
        let room = self.room(&case, &answer);
        self.out.write_all(&line::of_case(&case, room, &answer))?;

        match case.task {
            Task::Step => self.tally.steps += 1,
            Task::Run => {
                self.tally.runs += 1;
                self.tally.steps_in_runs += u64::from(answer.machine.count - case.machine.count);
            }
            Task::Load => self.tally.loads += 1,
        }
        self.made_one();
        Ok(())
    }

    pub fn opcode(&mut self, byte: u8) -> io::Result<()> {
        self.other(words::opcode_line(byte))
    }

    pub fn name(&mut self, text: &str) -> io::Result<()> {
        self.other(words::name_line(text))
    }

    pub fn flags(&mut self, flags: u8, byte: u8) -> io::Result<()> {
        self.other(words::flags_line(flags, byte))
    }

    /// Writes out what is still held and says on standard error what was made.
    pub fn finish(mut self) -> io::Result<()> {
        self.out.flush()?;
        eprintln!("made {}", self.tally);
        Ok(())
    }

    /// A length of the output buffer with which the Rust, whose output has no end, can be compared: enough for what
    /// was printed. Where nothing was, any will do, shorter than what was written before too.
    fn room(&mut self, case: &Case, answer: &Answer) -> u32 {
        if case.task == Task::Load {
            return 0;
        }
        if answer.output.is_empty() && self.rooms.one_in(2) {
            return self.rooms.pick(&[0, case.written.saturating_sub(1), case.written]);
        }
        let needed = case.written + answer.output.len() as u32;
        MOST_ROOM.min(needed + self.rooms.pick(&[0, 1, 3]))
    }

    fn other(&mut self, line: Vec<u8>) -> io::Result<()> {
        self.out.write_all(&line)?;
        self.tally.others += 1;
        self.made_one();
        Ok(())
    }

    fn made_one(&mut self) {
        self.tally.made += 1;
        if self.tally.made % 500_000 == 0 {
            eprintln!("made {}", self.tally.made);
        }
    }
}

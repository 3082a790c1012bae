//! Random sources.

use std::io;

use crate::labels::damage::damage;
use crate::labels::files::Files;
use crate::labels::lines::{self, Names};
use crate::labels::source::LONGEST;
use crate::random::Random;

/// Of every five sources two are damaged, and of every thousand one is about as long as it may be. A source that cannot
/// be compared is drawn anew.
pub fn sources(files: &mut Files, number: u64, random: &mut Random) -> io::Result<()> {
    for i in 0..number {
        let mut draw = || match i % 1000 {
            999 => long(random),
            i if i % 5 < 2 => damage(&short(random), random),
            _ => short(random),
        };
        while !files.source(&draw())? {}
    }
    Ok(())
}

/// A source of a few lines, or of so many that an address wraps.
pub fn short(random: &mut Random) -> String {
    let count = match random.below(64) {
        0 => random.between(100, 400),
        1..=4 => random.between(20, 100),
        _ => random.below(12),
    };
    let mut source = Source::new(random);
    for _ in 0..count {
        source.line(random);
    }
    source.finish(random)
}

/// A source of 16,384 bytes or a few less; half of them with a fault near the end.
fn long(random: &mut Random) -> String {
    let mut source = Source { faults: 0, ..Source::new(random) };
    while source.text.len() < LONGEST - 700 {
        source.line(random);
    }
    source.faults = random.below(2) * 4;
    while source.text.len() < LONGEST - 40 {
        source.line(random);
    }
    let text = source.finish(random);
    if random.one_in(2) {
        return text;
    }
    let missing = LONGEST.saturating_sub(text.len());
    format!("{text}{}", random.pick(&[" ", "\n", ";", "\t"]).repeat(missing))
}

/// A source being written.
struct Source {
    text: String,
    names: Names,
    /// What lines end in, drawn for each.
    ends: &'static [&'static str],
    /// How many of a hundred lines are faulty.
    faults: u32,
}

impl Source {
    fn new(random: &mut Random) -> Self {
        let ends: [&[&str]; 4] = [&["\n"], &["\n"], &["\r\n"], &["\n", "\r\n", "\r\r\n", "\n\n", " \n"]];
        Source {
            text: String::new(),
            names: Names::default(),
            ends: random.pick(&ends),
            faults: random.pick(&[0, 0, 0, 4, 20]),
        }
    }

    fn line(&mut self, random: &mut Random) {
        let line = if random.below(100) < self.faults {
            lines::faulty(&mut self.names, random)
        } else {
            lines::good(&mut self.names, random)
        };
        self.text.push_str(&lines::dressed(&line, random));
        self.text.push_str(random.pick(self.ends));
    }

    /// The source, once in three without its last line's end.
    fn finish(mut self, random: &mut Random) -> String {
        if random.one_in(3) {
            self.text.truncate(self.text.trim_end_matches('\n').len());
        }
        self.text
    }
}

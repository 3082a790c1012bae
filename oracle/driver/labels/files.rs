//! The sources as they are made: each is put to both builds of the Rust, written with its answer and counted.

use std::fmt;
use std::fs::{self, File};
use std::io::{self, BufWriter, Write};
use std::path::{Path, PathBuf};

use crate::labels::pass::{self, Refusal, DOCUMENT_01, UNCHANGED};
use crate::labels::source::{self, MOST_NAMES};
use crate::labels::table;

/// The longest file of sources.
const MOST_BYTES: usize = 65_536;

/// Stands behind each source; no source holds it.
const END: u8 = 0xFF;

pub enum Naming {
    /// `sources.0001` and on.
    Numbered,
    /// `sources`, which must be enough.
    Alone,
}

pub struct Files {
    folder: PathBuf,
    naming: Naming,
    /// How many files of sources are written.
    written: usize,
    /// What the next one will hold.
    bytes: Vec<u8>,
    /// The answers, a line a source.
    expected: BufWriter<File>,
    tally: Tally,
}

#[derive(Default)]
struct Tally {
    made: u64,
    mapped: u64,
    refused_16: u64,
    refused_17: u64,
    most_names: usize,
    /// The unchanged files answer otherwise; each has a line on which the rules disagree.
    otherwise: u64,
    /// The unchanged files answer the same, though there is such a line.
    the_same: u64,
}

impl fmt::Display for Tally {
    fn fmt(&self, f: &mut fmt::Formatter<'_>) -> fmt::Result {
        let Tally { made, mapped, refused_16, refused_17, most_names, otherwise, the_same } = self;
        write!(f, "unchanged files: {otherwise} answer otherwise, each with a line on which the rules disagree; ")?;
        writeln!(f, "{the_same} have such a line and answer the same")?;
        write!(f, "made {made}: {mapped} mapped, {refused_16} refused 16, {refused_17} refused 17; ")?;
        write!(f, "at most {most_names} labels; {otherwise} answered otherwise by the unchanged files")
    }
}

impl Files {
    pub fn new(folder: &Path, naming: Naming) -> io::Result<Self> {
        match naming {
            // A folder that is there already may hold more files, of another run, than this one writes.
            Naming::Numbered => fs::create_dir(folder),
            Naming::Alone => fs::create_dir_all(folder),
        }
        .map_err(|error| io::Error::other(format!("{}: {error}", folder.display())))?;
        Ok(Files {
            folder: folder.to_owned(),
            naming,
            written: 0,
            bytes: Vec::with_capacity(MOST_BYTES),
            expected: BufWriter::new(File::create(folder.join("expected"))?),
            tally: Tally::default(),
        })
    }

    /// Writes a source and its answer, unless document 01 does not let it be compared; tells whether it did.
    pub fn source(&mut self, source: &str) -> io::Result<bool> {
        if !source::may_be_compared(source) {
            return Ok(false);
        }
        let run = (DOCUMENT_01.map_labels)(source);
        if run.recorded > MOST_NAMES {
            return Ok(false);
        }
        let answers_the_same = (UNCHANGED.map_labels)(source).answer == run.answer;
        let rules_disagree = source::lines(source).any(|line| pass::rules_disagree(line.text));
        match (answers_the_same, rules_disagree) {
            (true, false) => {}
            (true, true) => self.tally.the_same += 1,
            (false, true) => self.tally.otherwise += 1,
            (false, false) => {
                let message = format!("the unchanged files answer otherwise, and no line tells why: {source:?}");
                return Err(io::Error::other(message));
            }
        }

        self.tally.made += 1;
        match &run.answer {
            Ok(labels) => {
                self.tally.mapped += 1;
                self.tally.most_names = self.tally.most_names.max(labels.len());
            }
            Err(Refusal { number: 16, .. }) => self.tally.refused_16 += 1,
            Err(_) => self.tally.refused_17 += 1,
        }
        self.expected.write_all(table::line(source, &run.answer).as_bytes())?;
        if self.bytes.len() + source.len() + 1 > MOST_BYTES {
            self.write_file()?;
        }
        self.bytes.extend_from_slice(source.as_bytes());
        self.bytes.push(END);
        if self.tally.made % 100_000 == 0 {
            eprintln!("made {}", self.tally.made);
        }
        Ok(true)
    }

    /// Writes out what is still held and says on standard error what was made.
    pub fn finish(&mut self) -> io::Result<()> {
        self.write_file()?;
        self.expected.flush()?;
        eprintln!("{}", self.tally);
        Ok(())
    }

    fn write_file(&mut self) -> io::Result<()> {
        self.written += 1;
        let name = match (&self.naming, self.written) {
            (Naming::Numbered, number @ 1..=9999) => format!("sources.{number:04}"),
            (Naming::Alone, 1) => "sources".to_string(),
            _ => return Err(io::Error::other("the sources are too many for their files")),
        };
        fs::write(self.folder.join(name), &self.bytes)?;
        self.bytes.clear();
        Ok(())
    }
}

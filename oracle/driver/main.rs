//! The oracle: asks the original Rust of NanoCore and writes what it answers, a case or a source a line (FORMAT.md).

use std::io::{self, BufWriter, StdoutLock, Write};
use std::path::PathBuf;
use std::process::ExitCode;

use crate::list::List;
use crate::random::Random;

mod answer;
mod case;
mod chance;
mod draw;
mod every;
mod feed;
mod instructions;
mod labels;
mod line;
mod list;
mod operations;
mod program;
mod programs;
mod random;
mod record;
mod time;
mod words;

const USAGE: &str = "usage: oracle all N SEED               every case of the exhaustive families, then N random ones
       oracle record                   the list that the repository keeps
       oracle labels N SEED FOLDER     sources for the address pass and their answers, in a new folder: likewise
       oracle labels record FOLDER     those that the repository keeps, in a folder
       oracle time RULE INPUT ROUNDS   how long a rule takes, in nanoseconds a step";

type Out = BufWriter<StdoutLock<'static>>;

enum Wanted {
    All { number: u64, seed: u64 },
    Record,
    Labels { number: u64, seed: u64, folder: PathBuf },
    LabelsRecord { folder: PathBuf },
    Time { rule: PathBuf, input: PathBuf, rounds: u32 },
}

fn wanted(arguments: &[String]) -> Option<Wanted> {
    let arguments: Vec<&str> = arguments.iter().map(String::as_str).collect();
    Some(match arguments[..] {
        ["all", number, seed] => Wanted::All { number: number.parse().ok()?, seed: seed.parse().ok()? },
        ["record"] => Wanted::Record,
        ["labels", "record", folder] => Wanted::LabelsRecord { folder: folder.into() },
        ["labels", number, seed, folder] => {
            Wanted::Labels { number: number.parse().ok()?, seed: seed.parse().ok()?, folder: folder.into() }
        }
        ["time", rule, input, rounds] => {
            Wanted::Time { rule: rule.into(), input: input.into(), rounds: rounds.parse().ok().filter(|n| *n > 0)? }
        }
        _ => return None,
    })
}

fn main() -> ExitCode {
    let arguments: Vec<String> = std::env::args().skip(1).collect();
    let Some(wanted) = wanted(&arguments) else {
        eprintln!("{USAGE}");
        return ExitCode::from(2);
    };
    match make(&wanted) {
        Ok(()) => ExitCode::SUCCESS,
        Err(error) => {
            eprintln!("oracle: {error}");
            ExitCode::FAILURE
        }
    }
}

fn make(wanted: &Wanted) -> io::Result<()> {
    match wanted {
        Wanted::All { number, seed } => listed(|list| all(list, *number, *seed)),
        Wanted::Record => listed(record::record),
        Wanted::Labels { number, seed, folder } => labels::all(*number, *seed, folder),
        Wanted::LabelsRecord { folder } => labels::sample(folder),
        Wanted::Time { rule, input, rounds } => time::time(rule, input, *rounds),
    }
}

/// Makes a list on standard output.
fn listed(fill: impl FnOnce(&mut List<Out>) -> io::Result<()>) -> io::Result<()> {
    let mut list = List::new(BufWriter::with_capacity(1 << 20, io::stdout().lock()))?;
    fill(&mut list)?;
    list.finish()
}

fn all(list: &mut List<impl Write>, number: u64, seed: u64) -> io::Result<()> {
    let random = &mut Random::from_seed(seed);
    words::opcodes(list)?;
    words::names(list)?;
    words::flags(list)?;
    every::steps(list, random)?;
    every::loads(list, random)?;
    chance::cases(list, number, random)
}

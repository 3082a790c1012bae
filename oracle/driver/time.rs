//! How long the Rust takes for a rule, of which nothing is compared: the steps, and the nanoseconds a step in the best of many rounds.

use std::io::{self, Write};
use std::path::Path;
use std::time::{Duration, Instant};

use crate::case::Machine;
use crate::feed::Feed;

/// One line, named after the rule's file. The machine is fresh but for the rule in its memory and the largest limit.
pub fn time(rule: &Path, input: &Path, rounds: u32) -> io::Result<()> {
    let mut machine = Machine::fresh();
    machine.limit = u16::MAX;
    machine.lay(0, &std::fs::read(rule)?);
    let input = std::fs::read(input)?;
    let mut feed = Feed::open()?;
    let mut least = Duration::MAX;
    let mut steps = 0;
    for _ in 0..rounds {
        let mut core = machine.to_core();
        feed.give(&input)?;
        let start = Instant::now();
        let result = core.run();
        least = least.min(start.elapsed());
        feed.take_back()?;
        result.map_err(|error| io::Error::other(format!("{} does not halt: {error:?}", rule.display())))?;
        steps = core.cycle;
    }
    let name = rule.file_name().unwrap_or_default().to_string_lossy();
    writeln!(io::stdout(), "{name} steps {steps} Rust {:.2}", least.as_nanos() as f64 / f64::from(steps))
}

//! The list that the repository keeps: few enough lines to be read, each kind of case and each edge among them.

use std::io::{self, Write};

use crate::list::List;
use crate::random::Random;

mod loads;
mod runs;
mod steps;
mod words;

pub fn record(list: &mut List<impl Write>) -> io::Result<()> {
    list.remark("Cases with the answers of NanoCore's Rust, AfaanBilal/NanoCore at commit 3d4b473528.")?;
    list.remark("Made by oracle/record; the same bytes each time. oracle/FORMAT.md says how a line is read.")?;
    // Always the same seed, so always the same list.
    let random = &mut Random::from_seed(40);
    words::words(list)?;
    steps::steps(list, random)?;
    runs::runs(list, random)?;
    loads::loads(list, random)
}

//! The address pass: sources, and what the Rust's `map_labels` answers to them.

use std::io;
use std::path::Path;

use crate::labels::files::{Files, Naming};
use crate::random::Random;

mod chance;
mod damage;
mod every;
mod files;
mod lines;
mod pass;
mod record;
mod source;
mod table;

/// The families that leave nothing out, then `number` random sources.
pub fn all(number: u64, seed: u64, folder: &Path) -> io::Result<()> {
    let files = &mut Files::new(folder, Naming::Numbered)?;
    every::sources(files)?;
    chance::sources(files, number, &mut Random::from_seed(seed))?;
    files.finish()
}

/// The sample that the repository keeps, in one file.
pub fn sample(folder: &Path) -> io::Result<()> {
    let files = &mut Files::new(folder, Naming::Alone)?;
    record::sources(files)?;
    files.finish()
}

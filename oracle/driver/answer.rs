//! What the Rust answers to a case, in document 01's numbers.

use std::io;

use nanocore::{EmulatorError, Op};

use crate::case::{Case, Machine, Task};
use crate::feed::Feed;

pub struct Answer {
    pub number: u8,
    pub first: u32,
    pub second: u32,
    /// Read back in acceptance and in refusal alike.
    pub machine: Machine,
    /// How many bytes of input were read.
    pub taken: u32,
    pub output: Vec<u8>,
}

pub fn ask(case: &Case, feed: &mut Feed) -> io::Result<Answer> {
    assert!(case.is_in_domain(), "not to be compared: {case:?}");
    let mut core = case.machine.to_core();
    feed.give(case.unread())?;
    let result = match case.task {
        Task::Step => core.cycle(),
        Task::Run => core.run(),
        Task::Load => core.load_program(&case.input, case.place as u8),
    };
    let taken = feed.take_back()?;

    let (number, first, second) = match result {
        Ok(()) => match case.task {
            Task::Step => (u8::from(core.cpu.is_halted), 0, 0),
            Task::Run => (1, 0, 0),
            Task::Load => (0, 0, 0),
        },
        Err(error) => refusal(&error).unwrap_or_else(|| panic!("{error:?} at {case:?}")),
    };
    // Any other failure to read would be the feed's, not the machine's.
    assert!(number != 7 || taken == case.unread().len(), "IN found no byte though one was left: {case:?}");

    // The Rust keeps the characters of the code points 0 to 255: these are the bytes, whatever their UTF-8 is.
    let output = core.output.chars().map(|c| u8::try_from(u32::from(c)).expect("a code point below 256")).collect();
    Ok(Answer { number, first, second, machine: Machine::of(&core), taken: taken as u32, output })
}

/// The number and its values; none for `InvalidOperand`, which no bytes can bring about.
fn refusal(error: &EmulatorError) -> Option<(u8, u32, u32)> {
    Some(match error {
        EmulatorError::InvalidOpcode { opcode, pc } => (3, u32::from(*opcode), u32::from(*pc)),
        EmulatorError::StackOverflow { sp } => (4, u32::from(*sp), 0),
        EmulatorError::StackUnderflow { sp } => (5, u32::from(*sp), 0),
        EmulatorError::DivisionByZero { op } => (6, u32::from(u8::from(Op::try_from(op.as_str()).ok()?)), 0),
        EmulatorError::IoError(_) => (7, 0, 0),
        EmulatorError::MaxCyclesExceeded { cycles } => (10, u32::from(*cycles), 0),
        EmulatorError::ProgramTooLarge { size, start, .. } => (11, *size as u32, u32::from(*start)),
        EmulatorError::InvalidOperand { .. } => return None,
    })
}

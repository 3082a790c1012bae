//! One line of the list, as FORMAT.md has it.

use crate::answer::Answer;
use crate::case::{Case, Machine, Task};

/// A line being written. Groups of bytes are set apart by a blank.
pub struct Line(Vec<u8>);

impl Line {
    /// A line of the kind that `word` names.
    pub fn new(word: &str) -> Self {
        let mut text = Vec::with_capacity(512);
        text.extend_from_slice(word.as_bytes());
        Line(text)
    }

    /// A blank and the bytes; nothing where there are none.
    pub fn group(&mut self, bytes: &[u8]) {
        const DIGITS: &[u8; 16] = b"0123456789ABCDEF";
        if !bytes.is_empty() {
            self.0.push(b' ');
        }
        for byte in bytes {
            self.0.push(DIGITS[usize::from(byte >> 4)]);
            self.0.push(DIGITS[usize::from(byte & 15)]);
        }
    }

    fn number(&mut self, number: u32) {
        self.group(&number.to_be_bytes());
    }

    /// The bar between what is given and what was answered.
    pub fn bar(&mut self) {
        self.0.extend_from_slice(b" |");
    }

    /// All of a machine but its memory.
    fn machine(&mut self, machine: &Machine) {
        self.group(&[machine.pc, machine.sp, machine.flags, machine.halted.into()]);
        self.number(machine.count.into());
        self.number(machine.limit.into());
        self.group(&machine.registers);
    }

    /// The end of either half: the two lengths, where the memory changed, and the bytes that were read or printed.
    fn changes_and_bytes(&mut self, before: &[u8; 256], after: &[u8; 256], bytes: &[u8]) {
        let changed = || (0..=255_u8).filter(|&address| before[address as usize] != after[address as usize]);
        self.number(bytes.len() as u32);
        self.number(changed().count() as u32);
        for address in changed() {
            self.group(&[address, after[address as usize]]);
        }
        self.group(bytes);
    }

    pub fn finish(mut self) -> Vec<u8> {
        self.0.push(b'\n');
        self.0
    }
}

/// The line of a `step`, `run` or `load` case.
pub fn of_case(case: &Case, room: u32, answer: &Answer) -> Vec<u8> {
    let mut line = Line::new(match case.task {
        Task::Step => "step",
        Task::Run => "run",
        Task::Load => "load",
    });
    line.machine(&case.machine);
    line.number(case.place);
    line.number(case.written);
    line.number(room);
    line.changes_and_bytes(&[0; 256], &case.machine.memory, &case.input);
    line.bar();
    line.group(&[answer.number]);
    line.number(answer.first);
    line.number(answer.second);
    line.machine(&answer.machine);
    line.number(case.place + answer.taken);
    line.number(case.written + answer.output.len() as u32);
    line.changes_and_bytes(&case.machine.memory, &answer.machine.memory, &answer.output);
    line.finish()
}

//! The given part of a `step`, `run` or `load` case: what the Rust is asked.

use nanocore::nanocore::NanoCore;

/// What a NanoCore keeps, without its texts, its log and its printing switches, which no answer depends on.
#[derive(Clone, Debug)]
pub struct Machine {
    pub pc: u8,
    pub sp: u8,
    pub flags: u8,
    pub halted: bool,
    pub count: u16,
    pub limit: u16,
    pub registers: [u8; 16],
    pub memory: [u8; 256],
}

impl Machine {
    pub fn fresh() -> Self {
        Self::of(&NanoCore::new())
    }

    pub fn of(core: &NanoCore) -> Self {
        Machine {
            pc: core.cpu.pc,
            sp: core.cpu.sp,
            flags: core.cpu.flags,
            halted: core.cpu.is_halted,
            count: core.cycle,
            limit: core.max_cycles,
            registers: core.cpu.registers,
            memory: core.cpu.memory,
        }
    }

    /// A new NanoCore in this state. New for every case, since it keeps a log.
    pub fn to_core(&self) -> NanoCore {
        let mut core = NanoCore::new();
        core.cpu.pc = self.pc;
        core.cpu.sp = self.sp;
        core.cpu.flags = self.flags;
        core.cpu.is_halted = self.halted;
        core.cycle = self.count;
        core.max_cycles = self.limit;
        core.cpu.registers = self.registers;
        core.cpu.memory = self.memory;
        core
    }

    /// Lays bytes from an address on, past 0xFF on from 0.
    pub fn lay(&mut self, address: u8, bytes: &[u8]) {
        for (i, &byte) in bytes.iter().enumerate() {
            self.memory[address.wrapping_add(i as u8) as usize] = byte;
        }
    }
}

#[derive(Clone, Copy, PartialEq, Eq, Debug)]
pub enum Task {
    Step,
    Run,
    Load,
}

#[derive(Clone, Debug)]
pub struct Case {
    pub task: Task,
    pub machine: Machine,
    /// The input's place; for a load the start address.
    pub place: u32,
    /// The number of output bytes written before; the Rust is not told.
    pub written: u32,
    /// The input's bytes; for a load the program's.
    pub input: Vec<u8>,
}

impl Case {
    /// A step from `machine`, with nothing to read and nothing written before.
    pub fn step(machine: Machine) -> Self {
        Case { task: Task::Step, machine, place: 0, written: 0, input: Vec::new() }
    }

    /// A run of `machine`, with nothing to read and nothing written before.
    pub fn run(machine: Machine) -> Self {
        Case { task: Task::Run, ..Case::step(machine) }
    }

    pub fn load(machine: Machine, start: u8, program: Vec<u8>) -> Self {
        Case { task: Task::Load, machine, place: start.into(), written: 0, input: program }
    }

    pub fn reading(mut self, input: Vec<u8>, place: u32) -> Self {
        self.input = input;
        self.place = place;
        self
    }

    pub fn after(mut self, written: u32) -> Self {
        self.written = written;
        self
    }

    /// What IN can still read: nothing where the place is at or past the end, and nothing for a load.
    pub fn unread(&self) -> &[u8] {
        match self.task {
            Task::Load => &[],
            Task::Step | Task::Run => self.input.get(self.place as usize..).unwrap_or(&[]),
        }
    }

    /// Whether document 01 lets the case be compared: a step neither halted nor at the highest count.
    pub fn is_in_domain(&self) -> bool {
        self.task != Task::Step || (!self.machine.halted && self.machine.count < u16::MAX)
    }
}

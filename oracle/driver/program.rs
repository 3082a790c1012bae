//! A program being written, byte by byte, from its origin on.

use nanocore::Op;

use crate::case::Machine;

pub struct Program {
    origin: u8,
    bytes: Vec<u8>,
}

/// An address that is not known yet, standing in an instruction.
pub struct Hole(usize);

impl Program {
    pub fn at(origin: u8) -> Self {
        Program { origin, bytes: Vec::new() }
    }

    /// The address of what is written next.
    pub fn here(&self) -> u8 {
        self.origin.wrapping_add(self.bytes.len() as u8)
    }

    /// The address `distance` below the origin: no program here is long enough to reach it from the other side.
    pub fn before_origin(&self, distance: u8) -> u8 {
        self.origin.wrapping_sub(distance)
    }

    /// An operation without operands.
    pub fn plain(&mut self, op: Op) {
        self.data(&[op.into()]);
    }

    /// An operation on one register.
    pub fn one(&mut self, op: Op, register: u8) {
        self.data(&[op.into(), register]);
    }

    /// An operation on two registers.
    pub fn two(&mut self, op: Op, d: u8, s: u8) {
        self.data(&[op.into(), d << 4 | s]);
    }

    /// An operation on a register and a value or an address.
    pub fn with(&mut self, op: Op, register: u8, byte: u8) {
        self.data(&[op.into(), register, byte]);
    }

    /// A jump or a call.
    pub fn jump(&mut self, op: Op, address: u8) {
        self.data(&[op.into(), address]);
    }

    pub fn data(&mut self, bytes: &[u8]) {
        self.bytes.extend_from_slice(bytes);
    }

    /// A jump or a call whose address comes later.
    pub fn jump_ahead(&mut self, op: Op) -> Hole {
        self.jump(op, 0);
        Hole(self.bytes.len() - 1)
    }

    /// An operation on a register and an address that comes later.
    pub fn with_ahead(&mut self, op: Op, register: u8) -> Hole {
        self.with(op, register, 0);
        Hole(self.bytes.len() - 1)
    }

    /// Fills a hole with the address of what is written next.
    pub fn fill(&mut self, hole: Hole) {
        self.bytes[hole.0] = self.here();
    }

    /// Lays the program into the memory and sets pc to its origin.
    pub fn place(&self, machine: &mut Machine) {
        machine.lay(self.origin, &self.bytes);
        machine.pc = self.origin;
    }
}

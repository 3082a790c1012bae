//! The `opcode`, `name` and `flags` cases: the Rust's tables and its flag methods, whole.

use std::io::{self, Write};

use nanocore::cpu::CPU;
use nanocore::Op;

use crate::line::Line;
use crate::list::List;
use crate::operations;

pub fn opcode_line(byte: u8) -> Vec<u8> {
    let mut answer = [0; 9];
    if let Some(op) = Op::decode(byte) {
        let name: &str = op.into();
        answer[..4].copy_from_slice(&[1, op.into(), op.instruction_len(), name.len() as u8]);
        answer[4..][..name.len()].copy_from_slice(name.as_bytes());
    }
    let mut line = Line::new("opcode");
    line.group(&[byte]);
    line.bar();
    line.group(&answer[..4]);
    line.group(&answer[4..]);
    line.finish()
}

/// The text is at most 255 bytes long.
pub fn name_line(text: &str) -> Vec<u8> {
    let answer = match Op::try_from(text) {
        Ok(op) => [1, op.into()],
        Err(_) => [0, 0],
    };
    let mut line = Line::new("name");
    line.group(&[u8::try_from(text.len()).expect("a text of at most 255 bytes")]);
    line.group(text.as_bytes());
    line.bar();
    line.group(&answer);
    line.finish()
}

pub fn flags_line(flags: u8, byte: u8) -> Vec<u8> {
    let with = |change: fn(&mut CPU, u8)| {
        let mut cpu = CPU { flags, ..CPU::new() };
        change(&mut cpu, byte);
        cpu.flags
    };
    let is_set = CPU { flags, ..CPU::new() }.get_flag(byte);
    let mut line = Line::new("flags");
    line.group(&[flags]);
    line.group(&[byte]);
    line.bar();
    line.group(&[with(CPU::set_flag), with(CPU::clear_flag), is_set.into(), with(CPU::update_zn_flags)]);
    line.finish()
}

/// Every byte as an opcode.
pub fn opcodes(list: &mut List<impl Write>) -> io::Result<()> {
    (0..=255).try_for_each(|byte| list.opcode(byte))
}

/// Texts that resemble no single operation: none, what the Rust's comments and other processors call operations, and
/// what else a source may hold.
pub const STRAYS: [&str; 32] = [
    "", " ", "ST", "LD", "LDX", "LOAD", "HALT", "STOP", "NOOP", "JUMP", "JNE", "JEQ", "JC", "BR", "INT", "OUT", "PRT",
    "READ", "EQU", "NEG", "NAND", "RETI", "PUSHA", "R0", ".DB", ".STRING", ".CONST", "0x00", "00", ";", "LDI R1 5",
    "HLT:",
];

/// Every name, and texts near it.
pub fn names(list: &mut List<impl Write>) -> io::Result<()> {
    near_names(|text| list.name(text))
}

/// Visits every name, texts near it and texts that resemble none.
pub fn near_names(mut visit: impl FnMut(&str) -> io::Result<()>) -> io::Result<()> {
    for op in operations::all() {
        let name: &str = op.into();
        visit(name)?;
        visit(&name.to_lowercase())?;
        visit(&format!("{}{}", &name[..1], name[1..].to_lowercase()))?;
        for i in 0..name.len() {
            let (before, after) = (&name[..i], &name[i + 1..]);
            visit(&format!("{before}{after}"))?;
            visit(&format!("{before}{}{after}", name[i..=i].to_lowercase()))?;
            visit(&format!("{before}?{after}"))?;
        }
        for i in 0..=name.len() {
            let (before, after) = name.split_at(i);
            for letter in ["A", "I", "L", "R", "S", " ", "\t", "\n", "\0", "_", "é"] {
                visit(&format!("{before}{letter}{after}"))?;
            }
        }
        visit(&format!("{name}{name}"))?;
        visit(&name.chars().rev().collect::<String>())?;
    }
    STRAYS.iter().try_for_each(|text| visit(text))?;
    for length in [6, 16, 254, 255] {
        visit(&"HLT".repeat(length)[..length])?;
    }
    Ok(())
}

/// Every flags byte with every byte.
pub fn flags(list: &mut List<impl Write>) -> io::Result<()> {
    for flags in 0..=255 {
        for byte in 0..=255 {
            list.flags(flags, byte)?;
        }
    }
    Ok(())
}

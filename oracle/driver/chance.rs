//! Random cases, each kind drawn from everything that its domain allows.

use std::io::{self, Write};

use crate::case::{Case, Machine};
use crate::draw;
use crate::list::List;
use crate::program::Program;
use crate::programs::{self, Writing, TEMPLATES};
use crate::random::Random;

/// Of every twenty cases fourteen are steps, five runs and one a load.
pub fn cases(list: &mut List<impl Write>, number: u64, random: &mut Random) -> io::Result<()> {
    for i in 0..number {
        list.case(match i % 20 {
            0..=13 => step(random),
            14..=18 => run(random),
            _ => load(random),
        })?;
    }
    Ok(())
}

fn step(random: &mut Random) -> Case {
    let machine = match random.below(16) {
        0 => Machine { memory: draw::noise(random), ..draw::machine(random) },
        1 => Machine { memory: draw::crowded_memory(random), ..draw::machine(random) },
        _ => draw::machine_at(draw::opcode(random), draw::value(random), random),
    };
    let (input, place) = draw::input(random);
    Case::step(machine).reading(input, place).after(draw::written(random))
}

fn run(random: &mut Random) -> Case {
    let mut machine = draw::machine(random);
    machine.halted = random.one_in(32);
    (machine.count, machine.limit) = count_and_limit(random);
    match random.below(20) {
        0 => machine.memory = draw::noise(random),
        1..=2 => machine.memory = draw::crowded_memory(random),
        3..=7 => lay(&mut machine, programs::jumble, random),
        _ => {
            if random.one_in(2) {
                machine.sp = 0xFF;
            }
            let template = &TEMPLATES[random.below(TEMPLATES.len() as u32) as usize];
            lay(&mut machine, template.write, random);
        }
    }
    if random.one_in(4000) {
        machine = long(random);
    }
    let (input, place) = if random.one_in(2) {
        draw::input(random)
    } else {
        let length = random.between(1, 64) as usize;
        (random.bytes(length), random.pick(&[0, 0, 0, 1]))
    };
    Case::run(machine).reading(input, place).after(draw::written(random))
}

/// A machine that runs on for tens of thousands of steps.
fn long(random: &mut Random) -> Machine {
    let mut machine = draw::machine(random);
    machine.count = random.byte().into();
    machine.limit = u16::MAX - random.pick(&[0, 0, 0x4000, 0x8000, 0xC000]);
    let write = if random.one_in(8) { programs::endless_printing } else { programs::endless };
    lay(&mut machine, write, random);
    machine
}

/// Lays a program at pc, once in sixteen with a byte spoilt that may be one of its own.
fn lay(machine: &mut Machine, write: Writing, random: &mut Random) {
    let mut program = Program::at(machine.pc);
    write(&mut program, random);
    program.place(machine);
    if random.one_in(16) {
        let address = machine.pc.wrapping_add(random.below(32) as u8);
        machine.memory[address as usize] = random.byte();
    }
}

/// Mostly a limit that lets a run end by itself or cuts it short; sometimes a count at or above it; rarely any two, as
/// such a run may be as long as there can be.
fn count_and_limit(random: &mut Random) -> (u16, u16) {
    let (first, second) = (draw::count(random), draw::count(random));
    match random.below(256) {
        0 => (first, second),
        1..=16 => (first.max(second), first.min(second)),
        17..=63 => (0, 1024),
        64..=127 => (first, first.saturating_add(random.below(40) as u16)),
        _ => (first, first.saturating_add(random.below(400) as u16)),
    }
}

fn load(random: &mut Random) -> Case {
    let start = if random.one_in(4) { random.pick(&draw::EDGE_PLACES) } else { random.byte() };
    let fits = 256 - u32::from(start);
    let length = match random.below(8) {
        0..=3 => random.below(12),
        4..=5 => random.between(fits.saturating_sub(2), fits + 2),
        6 => random.below(fits + 1),
        _ => random.below(400),
    };
    load_of(start, length, random)
}

/// A load of random bytes on a random machine, halted or not, at any count.
pub fn load_of(start: u8, length: u32, random: &mut Random) -> Case {
    let mut machine = draw::machine(random);
    machine.halted = random.one_in(2);
    machine.count = draw::count(random);
    if random.one_in(8) {
        machine.memory = draw::noise(random);
    } else {
        // Some of it beneath what is loaded.
        for distance in random.bytes(6) {
            let address = start.wrapping_add(distance % 16).wrapping_sub(4);
            machine.memory[address as usize] = random.byte();
        }
    }
    Case::load(machine, start, random.bytes(length as usize))
}

//! Random parts of cases, the edges drawn more often than chance would.

use crate::case::Machine;
use crate::random::Random;

/// Values at which sums, shifts and flags turn.
pub const EDGE_VALUES: [u8; 8] = [0x00, 0x01, 0x02, 0x7F, 0x80, 0x81, 0xFE, 0xFF];

/// Where the stack is full, empty or next to it.
pub const EDGE_STACKS: [u8; 6] = [0xE9, 0xEA, 0xEB, 0xFE, 0xFF, 0x00];

/// Where an instruction lies across the memory's end, or next to it.
pub const EDGE_PLACES: [u8; 6] = [0xFD, 0xFE, 0xFF, 0x00, 0x01, 0x02];

/// Counts and limits: the least, those around a fresh machine's limit, the highest.
pub const EDGE_COUNTS: [u16; 6] = [0, 1, 1023, 1024, 65534, 65535];

pub fn value(random: &mut Random) -> u8 {
    if random.one_in(2) {
        random.pick(&EDGE_VALUES)
    } else {
        random.byte()
    }
}

pub fn register(random: &mut Random) -> u8 {
    random.below(16) as u8
}

/// Two different registers.
pub fn two_registers(random: &mut Random) -> (u8, u8) {
    let d = register(random);
    (d, (d + random.between(1, 15) as u8) % 16)
}

pub fn count(random: &mut Random) -> u16 {
    if random.one_in(2) {
        random.pick(&EDGE_COUNTS)
    } else {
        random.word()
    }
}

/// A machine that is not halted, with a memory of zeros. Its count may be stepped from.
pub fn machine(random: &mut Random) -> Machine {
    let mut registers = [0; 16];
    if random.one_in(4) {
        registers = registers.map(|_| random.pick(&EDGE_VALUES));
    } else {
        random.fill(&mut registers);
    }
    Machine {
        pc: if random.one_in(4) { random.pick(&EDGE_PLACES) } else { random.byte() },
        sp: if random.one_in(2) { random.pick(&EDGE_STACKS) } else { random.byte() },
        flags: random.byte(),
        halted: false,
        count: count(random).min(u16::MAX - 1),
        limit: count(random),
        registers,
        memory: [0; 256],
    }
}

/// A machine about to run the instruction with these two bytes, and random ones where it may look: behind them, on the
/// stack, and at the addresses that byte three and its register hold.
pub fn machine_at(opcode: u8, byte_2: u8, random: &mut Random) -> Machine {
    let mut machine = machine(random);
    let byte_3 = value(random);
    let of_register = machine.registers[(byte_2 & 15) as usize];
    for address in [byte_3, of_register, machine.sp, machine.sp.wrapping_add(1)] {
        machine.memory[address as usize] = random.byte();
    }
    machine.lay(machine.pc, &[opcode, byte_2, byte_3]);
    machine
}

/// How much was written before: nothing half of the time.
pub fn written(random: &mut Random) -> u32 {
    if random.one_in(2) {
        0
    } else {
        random.below(21)
    }
}

/// An input and a place in it: none, one or many bytes; before, at and past the end.
pub fn input(random: &mut Random) -> (Vec<u8>, u32) {
    let length = match random.below(8) {
        0..=2 => 0,
        3 => 1,
        4..=6 => random.between(2, 4),
        _ => random.between(5, 64),
    };
    let place = match random.below(12) {
        0..=4 => 0,
        5..=7 => random.below(length + 1),
        8 => length.saturating_sub(1),
        9 => length,
        10 => length + random.between(1, 3),
        _ => random.pick(&[0xFF, 0x100, 0x7FFF_FFFF, 0x8000_0000, 0xFFFF_FFFE, 0xFFFF_FFFF]),
    };
    (random.bytes(length as usize), place)
}

/// An opcode byte: an operation's seven times in eight.
pub fn opcode(random: &mut Random) -> u8 {
    if random.one_in(8) {
        random.between(0x28, 0xFF) as u8
    } else {
        random.below(0x28) as u8
    }
}

/// 256 bytes, most of them opcodes, so that what is run goes on for a while.
pub fn crowded_memory(random: &mut Random) -> [u8; 256] {
    [0; 256].map(|_: u8| if random.one_in(8) { random.byte() } else { random.below(0x28) as u8 })
}

pub fn noise(random: &mut Random) -> [u8; 256] {
    let mut memory = [0; 256];
    random.fill(&mut memory);
    memory
}

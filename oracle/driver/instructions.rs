//! Steps whose one instruction works on values that the caller says; all else is the machine's as handed in.

use nanocore::Op;

use crate::case::{Case, Machine};
use crate::draw;
use crate::random::Random;

/// An instruction at pc, in three bytes whatever its length.
pub fn of_bytes(mut machine: Machine, op: Op, byte_2: u8, byte_3: u8) -> Case {
    machine.lay(machine.pc, &[op.into(), byte_2, byte_3]);
    Case::step(machine)
}

/// An operation without operands, with any two bytes behind it.
pub fn plain(machine: Machine, op: Op, random: &mut Random) -> Case {
    of_bytes(machine, op, random.byte(), random.byte())
}

/// `op d s` with d holding `left` and s, another register, `right`.
pub fn on_two_registers(mut machine: Machine, op: Op, left: u8, right: u8, random: &mut Random) -> Case {
    let (d, s) = draw::two_registers(random);
    machine.registers[d as usize] = left;
    machine.registers[s as usize] = right;
    of_bytes(machine, op, d << 4 | s, random.byte())
}

/// `op d d` with d holding `value`.
pub fn on_itself(mut machine: Machine, op: Op, value: u8, random: &mut Random) -> Case {
    let d = draw::register(random);
    machine.registers[d as usize] = value;
    of_bytes(machine, op, d << 4 | d, random.byte())
}

/// `op d right` with d, byte two modulo 16, holding `left`.
pub fn on_value(mut machine: Machine, op: Op, left: u8, right: u8, random: &mut Random) -> Case {
    let byte_2 = random.byte();
    machine.registers[(byte_2 & 15) as usize] = left;
    of_bytes(machine, op, byte_2, right)
}

/// `op d` with d, byte two modulo 16, holding `value`.
pub fn on_one_register(machine: Machine, op: Op, value: u8, random: &mut Random) -> Case {
    on_value(machine, op, value, random.byte(), random)
}

/// A jump or call to the address in byte two.
pub fn to_address(machine: Machine, op: Op, address: u8, random: &mut Random) -> Case {
    of_bytes(machine, op, address, random.byte())
}

/// One of `operations::LOADING`, by which a register takes `value`.
pub fn loading(mut machine: Machine, op: Op, value: u8, random: &mut Random) -> Case {
    let (byte_2, byte_3) = (random.byte(), random.byte());
    let s = (byte_2 & 15) as usize;
    // Anywhere but in the instruction itself.
    let address = machine.pc.wrapping_add(random.between(3, 255) as u8);
    match op {
        Op::LDI => of_bytes(machine, op, byte_2, value),
        Op::MOV => {
            machine.registers[s] = value;
            of_bytes(machine, op, byte_2, byte_3)
        }
        Op::LDA => {
            machine.memory[address as usize] = value;
            of_bytes(machine, op, byte_2, address)
        }
        Op::LDR => {
            machine.registers[s] = address;
            machine.memory[address as usize] = value;
            of_bytes(machine, op, byte_2, byte_3)
        }
        // sp would be 0xFF, where the stack is empty: another address.
        Op::POP if address == 0 => loading(machine, op, value, random),
        Op::POP => {
            machine.sp = address - 1;
            machine.memory[address as usize] = value;
            of_bytes(machine, op, byte_2, byte_3)
        }
        Op::IN => {
            let mut input = random.bytes(3);
            let place = random.below(3);
            input[place as usize] = value;
            of_bytes(machine, op, byte_2, byte_3).reading(input, place)
        }
        _ => panic!("{op} loads nothing"),
    }
}

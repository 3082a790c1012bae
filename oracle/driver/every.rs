//! The families that leave no byte out: every instruction's first two bytes, every pair of operands, every flags byte,
//! every start of a load.

use std::io::{self, Write};

use nanocore::Op;

use crate::case::{Case, Machine};
use crate::chance;
use crate::draw;
use crate::instructions;
use crate::list::List;
use crate::operations::{LOADING, ON_ONE_REGISTER, ON_REGISTER_AND_VALUE, ON_TWO_REGISTERS};
use crate::random::Random;

pub fn steps(list: &mut List<impl Write>, random: &mut Random) -> io::Result<()> {
    first_two_bytes(list, random)?;
    pairs_of_operands(list, random)?;
    values_with_flags(list, random)?;
    operations_with_flags(list, random)
}

fn every_pair(mut visit: impl FnMut(u8, u8) -> io::Result<()>) -> io::Result<()> {
    (0..=255).try_for_each(|a| (0..=255).try_for_each(|b| visit(a, b)))
}

fn with_flags(flags: u8, random: &mut Random) -> Machine {
    Machine { flags, ..draw::machine(random) }
}

/// Every opcode byte with every byte behind it.
fn first_two_bytes(list: &mut List<impl Write>, random: &mut Random) -> io::Result<()> {
    every_pair(|opcode, byte_2| {
        let machine = draw::machine_at(opcode, byte_2, random);
        let length = random.below(4);
        let place = random.below(length + 2);
        list.case(Case::step(machine).reading(random.bytes(length as usize), place).after(draw::written(random)))
    })
}

/// Every pair of values for each operation on two.
fn pairs_of_operands(list: &mut List<impl Write>, random: &mut Random) -> io::Result<()> {
    for op in ON_TWO_REGISTERS {
        every_pair(|left, right| {
            list.case(instructions::on_two_registers(draw::machine(random), op, left, right, random))
        })?;
    }
    for op in ON_REGISTER_AND_VALUE {
        every_pair(|left, right| list.case(instructions::on_value(draw::machine(random), op, left, right, random)))?;
    }
    Ok(())
}

/// Every value with every flags byte, for each operation on one value and each that loads one.
fn values_with_flags(list: &mut List<impl Write>, random: &mut Random) -> io::Result<()> {
    for op in ON_ONE_REGISTER {
        every_pair(|value, flags| {
            list.case(instructions::on_one_register(with_flags(flags, random), op, value, random))
        })?;
    }
    for op in LOADING {
        every_pair(|value, flags| list.case(instructions::loading(with_flags(flags, random), op, value, random)))?;
    }
    Ok(())
}

/// Every flags byte with each operation on two values, on one register twice too, and with the jumps that look at it.
fn operations_with_flags(list: &mut List<impl Write>, random: &mut Random) -> io::Result<()> {
    for flags in 0..=255 {
        for op in ON_TWO_REGISTERS {
            let (left, right) = (draw::value(random), draw::value(random));
            list.case(instructions::on_two_registers(with_flags(flags, random), op, left, right, random))?;
            list.case(instructions::on_itself(with_flags(flags, random), op, left, random))?;
        }
        for op in ON_REGISTER_AND_VALUE {
            let (left, right) = (draw::value(random), draw::value(random));
            list.case(instructions::on_value(with_flags(flags, random), op, left, right, random))?;
        }
        for op in [Op::JZ, Op::JNZ] {
            list.case(instructions::to_address(with_flags(flags, random), op, random.byte(), random))?;
        }
    }
    Ok(())
}

/// Every start with the lengths around what fits behind it, and with others.
pub fn loads(list: &mut List<impl Write>, random: &mut Random) -> io::Result<()> {
    for start in 0..=255_u8 {
        let fits = 256 - u32::from(start);
        let mut lengths = vec![0, 1, 2, 255, 256, 257, 300];
        lengths.extend(fits.saturating_sub(2)..=fits + 2);
        lengths.sort_unstable();
        lengths.dedup();
        for length in lengths {
            list.case(chance::load_of(start, length, random))?;
        }
    }
    Ok(())
}

//! Steps: each operation on its edges, each byte that is none, each refusal.

use std::io::{self, Write};

use nanocore::Op;

use crate::case::{Case, Machine};
use crate::draw::{self, EDGE_COUNTS, EDGE_PLACES, EDGE_VALUES};
use crate::instructions;
use crate::list::List;
use crate::operations::{LOADING, ON_ONE_REGISTER, ON_REGISTER_AND_VALUE, ON_TWO_REGISTERS};
use crate::random::Random;

/// Both ends of what a byte holds, and the middle, where its highest bit turns.
const VALUES: [u8; 5] = [0x00, 0x01, 0x7F, 0x80, 0xFF];

/// The addresses at which an instruction lies across the memory's end, and the two beside them.
const PLACES: [u8; 4] = [0xFD, 0xFE, 0xFF, 0x00];

pub fn steps(list: &mut List<impl Write>, random: &mut Random) -> io::Result<()> {
    on_two_registers(list, random)?;
    on_register_and_value(list, random)?;
    on_one_register(list, random)?;
    loading(list, random)?;
    storing(list, random)?;
    printing(list, random)?;
    jumping(list, random)?;
    calling(list, random)?;
    plain(list, random)?;
    invalid(list, random)?;
    stack(list, random)?;
    division_by_zero(list, random)?;
    reading(list, random)?;
    counts(list, random)
}

fn with_flags(flags: u8, random: &mut Random) -> Machine {
    Machine { flags, ..draw::machine(random) }
}

fn at(pc: u8, random: &mut Random) -> Machine {
    Machine { pc, ..draw::machine(random) }
}

fn with_stack(sp: u8, random: &mut Random) -> Machine {
    Machine { sp, ..draw::machine(random) }
}

fn on_two_registers(list: &mut List<impl Write>, random: &mut Random) -> io::Result<()> {
    for op in ON_TWO_REGISTERS {
        list.remark(&format!("step, {op} d s: the edges of both; d the same as s; across the memory's end"))?;
        for left in VALUES {
            for right in VALUES {
                list.case(instructions::on_two_registers(draw::machine(random), op, left, right, random))?;
            }
        }
        for value in VALUES {
            list.case(instructions::on_itself(draw::machine(random), op, value, random))?;
        }
        for pc in PLACES {
            let (left, right) = (random.byte(), random.byte());
            list.case(instructions::on_two_registers(at(pc, random), op, left, right, random))?;
        }
    }
    Ok(())
}

fn on_register_and_value(list: &mut List<impl Write>, random: &mut Random) -> io::Result<()> {
    for op in ON_REGISTER_AND_VALUE {
        list.remark(&format!("step, {op} d value: the edges of both; across the memory's end"))?;
        for left in VALUES {
            for right in VALUES {
                list.case(instructions::on_value(draw::machine(random), op, left, right, random))?;
            }
        }
        for pc in PLACES {
            let (left, right) = (random.byte(), random.byte());
            list.case(instructions::on_value(at(pc, random), op, left, right, random))?;
        }
    }
    Ok(())
}

fn on_one_register(list: &mut List<impl Write>, random: &mut Random) -> io::Result<()> {
    for op in ON_ONE_REGISTER {
        list.remark(&format!("step, {op} d: with no flag set and with all; across the memory's end"))?;
        for value in [0x00, 0x01, 0x02, 0x03, 0x40, 0x55, 0x7E, 0x7F, 0x80, 0x81, 0xAA, 0xC0, 0xFE, 0xFF] {
            for flags in [0x00, 0xFF] {
                list.case(instructions::on_one_register(with_flags(flags, random), op, value, random))?;
            }
        }
        for pc in PLACES {
            list.case(instructions::on_one_register(at(pc, random), op, random.byte(), random))?;
        }
    }
    Ok(())
}

fn loading(list: &mut List<impl Write>, random: &mut Random) -> io::Result<()> {
    for op in LOADING {
        list.remark(&format!(
            "step, {op}: what is loaded, with no flag set, with C, with all; across the memory's end"
        ))?;
        for value in EDGE_VALUES {
            for flags in [0x00, 0x02, 0xFF] {
                list.case(instructions::loading(with_flags(flags, random), op, value, random))?;
            }
        }
        for pc in PLACES {
            list.case(instructions::loading(at(pc, random), op, random.byte(), random))?;
        }
    }
    list.remark("step, LDA and LDR: of the instruction's own bytes, and of the memory's ends")?;
    for pc in EDGE_PLACES {
        for address in [pc, pc.wrapping_add(1), pc.wrapping_add(2), 0x00, 0xFF] {
            list.case(instructions::on_value(at(pc, random), Op::LDA, random.byte(), address, random))?;
            list.case(instructions::on_two_registers(at(pc, random), Op::LDR, random.byte(), address, random))?;
        }
    }
    Ok(())
}

fn storing(list: &mut List<impl Write>, random: &mut Random) -> io::Result<()> {
    list.remark(
        "step, STORE and STR: on the instruction's own bytes, and to the memory's ends; STR of the address itself",
    )?;
    for pc in EDGE_PLACES {
        for address in [pc, pc.wrapping_add(1), pc.wrapping_add(2), 0x00, 0x80, 0xFF] {
            let value = draw::value(random);
            list.case(instructions::on_value(at(pc, random), Op::STORE, value, address, random))?;
            list.case(instructions::on_two_registers(at(pc, random), Op::STR, value, address, random))?;
        }
    }
    for value in VALUES {
        list.case(instructions::on_itself(draw::machine(random), Op::STR, value, random))?;
    }
    Ok(())
}

fn printing(list: &mut List<impl Write>, random: &mut Random) -> io::Result<()> {
    list.remark("step, PRINT: one byte, whatever its bits, behind what was written before")?;
    for value in [0x00, 0x0A, 0x1B, 0x20, 0x41, 0x7E, 0x7F, 0x80, 0xA5, 0xC2, 0xE9, 0xFF] {
        for written in [0, 1, 20] {
            let case = instructions::on_one_register(draw::machine(random), Op::PRINT, value, random);
            list.case(case.after(written))?;
        }
    }
    Ok(())
}

fn jumping(list: &mut List<impl Write>, random: &mut Random) -> io::Result<()> {
    list.remark(
        "step, JMP, JZ, JNZ, JMPR: to the memory's ends, and to the jump itself; Z set and clear among other flags",
    )?;
    for flags in [0x00, 0x01, 0x02, 0x04, 0xFE, 0xFF] {
        for address in [0x00, 0x01, 0x80, 0xFF] {
            for op in [Op::JMP, Op::JZ, Op::JNZ] {
                list.case(instructions::to_address(with_flags(flags, random), op, address, random))?;
            }
            list.case(instructions::on_one_register(with_flags(flags, random), Op::JMPR, address, random))?;
        }
    }
    for pc in EDGE_PLACES {
        for op in [Op::JMP, Op::JZ, Op::JNZ] {
            list.case(instructions::to_address(at(pc, random), op, pc, random))?;
        }
        list.case(instructions::on_one_register(at(pc, random), Op::JMPR, pc, random))?;
    }
    Ok(())
}

fn calling(list: &mut List<impl Write>, random: &mut Random) -> io::Result<()> {
    list.remark("step, CALL, CALLR, RET: what is pushed is pc + 2, across the memory's end too")?;
    for pc in [0xFC, 0xFD, 0xFE, 0xFF, 0x00, 0x01, 0x7F] {
        for address in [0x00, 0x80, pc] {
            for sp in [0xFE, 0xF0] {
                let machine = Machine { sp, ..at(pc, random) };
                list.case(instructions::to_address(machine.clone(), Op::CALL, address, random))?;
                list.case(instructions::on_one_register(machine.clone(), Op::CALLR, address, random))?;
                list.case(returning(machine, address, random))?;
            }
        }
    }
    Ok(())
}

/// A RET that finds `address` on the stack, unless its own bytes are there.
fn returning(mut machine: Machine, address: u8, random: &mut Random) -> Case {
    machine.lay(machine.sp.wrapping_add(1), &[address]);
    instructions::plain(machine, Op::RET, random)
}

fn plain(list: &mut List<impl Write>, random: &mut Random) -> io::Result<()> {
    list.remark("step, HLT and NOP: HLT moves neither pc nor count")?;
    for pc in EDGE_PLACES {
        for flags in [0x00, 0xFF] {
            for op in [Op::HLT, Op::NOP] {
                let machine = Machine { flags, ..at(pc, random) };
                list.case(instructions::plain(machine, op, random))?;
            }
        }
    }
    Ok(())
}

fn invalid(list: &mut List<impl Write>, random: &mut Random) -> io::Result<()> {
    list.remark("step, 3: each byte that is no opcode; nothing moves")?;
    for opcode in 0x28..=0xFF {
        let mut machine = draw::machine(random);
        machine.lay(machine.pc, &[opcode, random.byte()]);
        list.case(Case::step(machine).after(draw::written(random)))?;
    }
    Ok(())
}

fn stack(list: &mut List<impl Write>, random: &mut Random) -> io::Result<()> {
    list.remark("step, 4: PUSH, CALL, CALLR at sp 0xEA and at no other; sp wraps")?;
    for sp in [0xE8, 0xE9, 0xEA, 0xEB, 0xEC, 0xFE, 0xFF, 0x00, 0x01] {
        let rounds = if sp == 0xEA { 6 } else { 2 };
        for _ in 0..rounds {
            let value = random.byte();
            list.case(instructions::on_one_register(with_stack(sp, random), Op::PUSH, value, random))?;
            list.case(instructions::to_address(with_stack(sp, random), Op::CALL, value, random))?;
            list.case(instructions::on_one_register(with_stack(sp, random), Op::CALLR, value, random))?;
        }
    }
    list.remark("step, 5: POP and RET at sp 0xFF and at no other; sp wraps")?;
    for sp in [0xE9, 0xEA, 0xEB, 0xFC, 0xFD, 0xFE, 0xFF, 0x00, 0x01] {
        let rounds = if sp == 0xFF { 6 } else { 2 };
        for _ in 0..rounds {
            let value = random.byte();
            let mut machine = with_stack(sp, random);
            machine.lay(sp.wrapping_add(1), &[value]);
            list.case(instructions::on_one_register(machine, Op::POP, random.byte(), random))?;
            list.case(returning(with_stack(sp, random), value, random))?;
        }
    }
    list.remark("step: the stack on the instruction itself: pushed over it, popped from it")?;
    for sp in 0x3F..=0x42 {
        for op in [Op::PUSH, Op::POP, Op::CALL, Op::CALLR, Op::RET] {
            let machine = Machine { sp, ..at(0x40, random) };
            list.case(instructions::of_bytes(machine, op, 0x07, 0x2A))?;
        }
    }
    Ok(())
}

fn division_by_zero(list: &mut List<impl Write>, random: &mut Random) -> io::Result<()> {
    list.remark("step, 6: DIV, MOD, DIVI, MODI by 0, with the opcode; nothing moves")?;
    for value in VALUES {
        for op in [Op::DIV, Op::MOD] {
            list.case(instructions::on_two_registers(draw::machine(random), op, value, 0, random))?;
            list.case(instructions::on_itself(draw::machine(random), op, 0, random))?;
        }
        for op in [Op::DIVI, Op::MODI] {
            list.case(instructions::on_value(draw::machine(random), op, value, 0, random))?;
        }
    }
    Ok(())
}

fn reading(list: &mut List<impl Write>, random: &mut Random) -> io::Result<()> {
    list.remark("step, 7: IN with none left: no input, the place at its end, past it; before it one byte is read")?;
    for length in [0_usize, 1, 2, 5] {
        let end = length as u32;
        for place in [0, end.saturating_sub(1), end, end + 1, 0x100, 0x8000_0000, 0xFFFF_FFFE, 0xFFFF_FFFF] {
            let case = instructions::on_one_register(draw::machine(random), Op::IN, random.byte(), random);
            list.case(case.reading(random.bytes(length), place))?;
        }
    }
    list.remark("step: an input that is not read stays where it is")?;
    for op in [Op::NOP, Op::HLT, Op::INC, Op::PRINT, Op::POP, Op::DIVI] {
        for place in [0, 2, 9] {
            let case = instructions::on_value(draw::machine(random), op, random.byte(), 0, random);
            list.case(case.reading(random.bytes(3), place).after(place))?;
        }
    }
    Ok(())
}

fn counts(list: &mut List<impl Write>, random: &mut Random) -> io::Result<()> {
    list.remark("step: any count below 65,535 with any limit; a step does not look at the limit")?;
    for count in [0, 1, 1023, 1024, 65533, 65534] {
        for limit in EDGE_COUNTS {
            for op in [Op::NOP, Op::HLT] {
                let machine = Machine { count, limit, ..draw::machine(random) };
                list.case(instructions::of_bytes(machine, op, 0, 0))?;
            }
        }
    }
    Ok(())
}

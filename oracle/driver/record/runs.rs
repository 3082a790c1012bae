//! Runs: each way to end, at once and after steps; limits; programs of every kind.

use std::io::{self, Write};

use nanocore::Op;

use crate::case::{Case, Machine};
use crate::draw::{self, EDGE_COUNTS};
use crate::list::List;
use crate::program::Program;
use crate::programs::{self, Writing, TEMPLATES};
use crate::random::Random;

pub fn runs(list: &mut List<impl Write>, random: &mut Random) -> io::Result<()> {
    worked_cases(list)?;
    endings(list, random)?;
    limits(list, random)?;
    halted(list, random)?;
    several(list, random)?;
    long(list, random)?;
    much_printed(list)
}

fn fresh_with(bytes: &[u8]) -> Machine {
    let mut machine = Machine::fresh();
    machine.lay(0, bytes);
    machine
}

fn worked_cases(list: &mut List<impl Write>) -> io::Result<()> {
    list.remark("run: those of document 01's worked cases that a run shows")?;
    list.case(Case::run(Machine::fresh()))?;
    list.case(Case::run(fresh_with(&[0x02, 0x00, 0xFF, 0x0A, 0x00, 0x01, 0x00])))?;
    list.case(Case::run(fresh_with(&[0x02, 0x00, 0xFF, 0x0D, 0x00, 0x00])))?;
    for sp in [0xEB, 0xEA] {
        list.case(Case::run(Machine { sp, ..fresh_with(&[0x07, 0x00, 0x00]) }))?;
    }
    for sp in [0xFF, 0xFE] {
        let mut machine = Machine { sp, ..fresh_with(&[0x21]) };
        machine.memory[0xFF] = 0x30;
        list.case(Case::run(machine))?;
    }
    let mut machine = fresh_with(&[0x27, 0x12, 0x28]);
    machine.registers[1] = 0xAB;
    machine.registers[2] = 0x80;
    list.case(Case::run(machine))?;
    for limit in [4, 0] {
        list.case(Case::run(Machine { limit, ..fresh_with(&[0x16, 0x00]) }))?;
    }
    let mut machine = fresh_with(&[0x13, 0x12]);
    machine.registers[1] = 3;
    machine.registers[2] = 5;
    list.case(Case::run(machine))?;
    let mut machine = fresh_with(&[0x13, 0x07]);
    machine.lay(0xFF, &[0x02]);
    machine.pc = 0xFF;
    list.case(Case::run(machine))?;
    let mut machine = fresh_with(&[0x23, 0x00]);
    machine.registers[0] = 1;
    list.case(Case::run(machine))?;
    list.case(Case::run(Machine { count: 1023, ..fresh_with(&[0x00]) }))?;
    list.case(Case::run(Machine { count: 1023, ..fresh_with(&[0x01, 0x00]) }))
}

/// Each ending in the first step, and after steps that print, push and store, which stay.
fn endings(list: &mut List<impl Write>, random: &mut Random) -> io::Result<()> {
    list.remark("run: HLT and each refusal of a step, at once and after steps that stay done")?;
    type Ending = fn(&mut Program);
    let endings: [(Ending, u8); 12] = [
        (|program| program.plain(Op::HLT), 0xFF),
        (|program| program.data(&[0x28]), 0xFF),
        (|program| program.data(&[0xFF]), 0xFF),
        (|program| program.one(Op::PUSH, 5), 0xEA),
        (|program| program.jump(Op::CALL, 0), 0xEA),
        (|program| program.one(Op::CALLR, 5), 0xEA),
        (|program| program.one(Op::POP, 5), 0xFF),
        (|program| program.plain(Op::RET), 0xFF),
        (|program| program.two(Op::DIV, 5, 0), 0xFF),
        (|program| program.two(Op::MOD, 5, 0), 0xFF),
        (|program| program.with(Op::DIVI, 5, 0), 0xFF),
        (|program| program.with(Op::MODI, 5, 0), 0xFF),
    ];
    for (ending, sp) in endings {
        for origin in [0x00, 0x60, 0xFC] {
            for at_once in [true, false] {
                let mut machine = Machine { sp, ..draw::machine(random) };
                (machine.count, machine.limit) = (7, 1024);
                machine.registers[0] = 0;
                let mut program = Program::at(origin);
                if !at_once {
                    program.one(Op::PRINT, 5);
                    program.with(Op::STORE, 5, 0xA0);
                    // Down and up again, or up and down, so that the stack is where the ending wants it.
                    let moves = if sp == 0xFF { [Op::PUSH, Op::POP] } else { [Op::POP, Op::PUSH] };
                    moves.iter().for_each(|&op| program.one(op, 6));
                }
                ending(&mut program);
                program.place(&mut machine);
                list.case(Case::run(machine).after(draw::written(random)))?;
            }
        }
    }
    list.remark("run: IN until none is left, from any place")?;
    for (length, place) in [(0, 0), (1, 0), (1, 1), (3, 0), (3, 2), (3, 3), (3, 4), (8, 1), (3, 0xFFFF_FFFF)] {
        let mut machine = draw::machine(random);
        (machine.count, machine.limit) = (0, 1024);
        let mut program = Program::at(machine.pc);
        let again = program.here();
        program.one(Op::IN, 3);
        program.one(Op::PRINT, 3);
        program.jump(Op::JMP, again);
        program.place(&mut machine);
        list.case(Case::run(machine).reading(random.bytes(length), place))?;
    }
    Ok(())
}

fn limits(list: &mut List<impl Write>, random: &mut Random) -> io::Result<()> {
    list.remark("run, 10: the count at and above the limit, and each limit reached; HLT at the limit is not reached")?;
    for count in EDGE_COUNTS {
        for limit in EDGE_COUNTS {
            // Where the way to the limit is long, only a run that ends before it.
            let is_near = limit.saturating_sub(count) <= 2;
            for endless in [false, true] {
                if endless && !is_near {
                    continue;
                }
                let mut machine = Machine { count, limit, ..draw::machine(random) };
                let mut program = Program::at(machine.pc);
                if endless {
                    program.jump(Op::JMP, program.here());
                } else {
                    program.plain(Op::NOP);
                    program.plain(Op::HLT);
                }
                program.place(&mut machine);
                list.case(Case::run(machine))?;
            }
        }
    }
    for limit in [0, 1, 2, 3, 4, 5, 6, 7, 8] {
        let mut machine = Machine { limit, ..Machine::fresh() };
        machine.lay(0, &[0x19, 0x00, 0x0D, 0x00, 0x07, 0x00, 0x16, 0x00]);
        list.case(Case::run(machine))?;
    }
    Ok(())
}

fn halted(list: &mut List<impl Write>, random: &mut Random) -> io::Result<()> {
    list.remark("run: a halted machine answers 1 at once, whatever is at pc, at any count and limit")?;
    for opcode in [0x00, 0x01, 0x19, 0x24, 0x28, 0xFF] {
        for (count, limit) in [(0, 0), (0, 1024), (1024, 1024), (65535, 0), (65535, 65535)] {
            let mut machine = Machine { halted: true, count, limit, ..draw::machine(random) };
            machine.lay(machine.pc, &[opcode]);
            list.case(Case::run(machine).reading(random.bytes(2), 1).after(draw::written(random)))?;
        }
    }
    Ok(())
}

fn several(list: &mut List<impl Write>, random: &mut Random) -> io::Result<()> {
    for template in &TEMPLATES {
        list.remark(&format!("run: {}", template.shows))?;
        for round in 0..20 {
            let mut machine = draw::machine(random);
            machine.count = 0;
            machine.limit = if round % 4 == 3 { random.below(40) as u16 } else { 600 };
            machine.sp = if round % 2 == 0 { 0xFF } else { machine.sp };
            list.case(program_run(machine, template.write, random))?;
        }
    }
    list.remark("run: random instructions one behind the other")?;
    for _ in 0..40 {
        let machine = Machine { count: 0, limit: 300, ..draw::machine(random) };
        list.case(program_run(machine, programs::jumble, random))?;
    }
    Ok(())
}

fn program_run(mut machine: Machine, write: Writing, random: &mut Random) -> Case {
    let mut program = Program::at(machine.pc);
    write(&mut program, random);
    program.place(&mut machine);
    let mut input = random.bytes(12);
    input[10] = 0;
    Case::run(machine).reading(input, random.below(4)).after(draw::written(random))
}

fn long(list: &mut List<impl Write>, random: &mut Random) -> io::Result<()> {
    list.remark("run: thousands of steps; the last is the longest there can be, 65,535")?;
    for limit in [1024, 1025, 2000, 4096, 5000, 65535] {
        let machine = Machine { limit, ..Machine::fresh() };
        list.case(program_run(machine, programs::endless, random))?;
    }
    Ok(())
}

fn much_printed(list: &mut List<impl Write>) -> io::Result<()> {
    list.remark("run: hundreds of bytes printed; as many as the longest buffer takes, 4,096")?;
    for limit in [900, 3 * 4096 - 2] {
        // PRINT R0, INC R0, JMP 0: a byte every three steps.
        let machine = Machine { limit, ..fresh_with(&[0x19, 0x00, 0x0D, 0x00, 0x16, 0x00]) };
        list.case(Case::run(machine))?;
    }
    Ok(())
}

//! Programs that go on for a while. Random memory mostly dies within a few steps; these loop, call, walk, read and
//! print, with random registers, counts and addresses, so that walks and stacks may also run into the program itself.

use nanocore::Op;

use crate::draw;
use crate::operations::{ON_ONE_REGISTER, ON_TWO_REGISTERS};
use crate::program::Program;
use crate::random::Random;

pub type Writing = fn(&mut Program, &mut Random);

pub struct Template {
    pub shows: &'static str,
    pub write: Writing,
}

pub const TEMPLATES: [Template; 15] = [
    Template { shows: "a counted loop in a counted loop", write: nested_loops },
    Template { shows: "a routine that calls itself, with a register saved or none", write: recursion },
    Template { shows: "a walk that changes each byte it meets, of the program too", write: walk },
    Template { shows: "bytes copied by two walking registers, over the program too", write: copy },
    Template { shows: "input printed until a 0, or until it ends", write: echo },
    Template { shows: "so many bytes of input, printed and summed, or until it ends", write: reading },
    Template { shows: "a text printed up to its 0", write: text },
    Template { shows: "values printed by a counted loop", write: printing },
    Template { shows: "a divisor counted down until it is 0", write: division },
    Template { shows: "an instruction whose value the program rewrites down to 0", write: rewriting },
    Template { shows: "pushes or calls until the stack is full", write: filling },
    Template { shows: "pops or returns until the stack is empty", write: emptying },
    Template { shows: "jumps through a table of addresses", write: table },
    Template { shows: "a loop without an end", write: endless },
    Template { shows: "a loop without an end that prints", write: endless_printing },
];

/// Four different registers.
fn four_registers(random: &mut Random) -> [u8; 4] {
    let first = draw::register(random);
    // An odd stride visits all sixteen.
    let stride = 2 * random.below(8) as u8 + 1;
    [0, 1, 2, 3].map(|i| (first + i * stride) % 16)
}

/// A few instructions that change `d`, read `s` too and neither jump nor fail.
fn busy(program: &mut Program, most: u32, d: u8, s: u8, random: &mut Random) {
    for _ in 0..random.between(0, most) {
        match random.below(10) {
            0..=2 => {
                let op = random.pick(&ON_TWO_REGISTERS);
                // The divisor might be 0: the two divisions have a template of their own.
                let op = if matches!(op, Op::DIV | Op::MOD) { Op::MOV } else { op };
                program.two(op, d, s);
            }
            3..=4 => {
                let op = random.pick(&[Op::LDI, Op::ADDI, Op::SUBI, Op::MULI]);
                program.with(op, d, random.byte());
            }
            5 => program.with(random.pick(&[Op::DIVI, Op::MODI]), d, random.between(1, 255) as u8),
            6..=7 => program.one(random.pick(&ON_ONE_REGISTER), d),
            8 => {
                let op = random.pick(&[Op::LDA, Op::STORE]);
                program.with(op, d, program.before_origin(random.between(1, 16) as u8));
            }
            _ => program.plain(Op::NOP),
        }
    }
}

/// Prints `register`, half of the time.
fn perhaps_print(program: &mut Program, register: u8, random: &mut Random) {
    if random.one_in(2) {
        program.one(Op::PRINT, register);
    }
}

fn nested_loops(program: &mut Program, random: &mut Random) {
    let [outer, inner, d, s] = four_registers(random);
    program.with(Op::LDI, outer, random.between(1, 6) as u8);
    let outer_loop = program.here();
    program.with(Op::LDI, inner, random.between(1, 12) as u8);
    let inner_loop = program.here();
    busy(program, 4, d, s, random);
    program.one(Op::DEC, inner);
    program.jump(Op::JNZ, inner_loop);
    perhaps_print(program, d, random);
    busy(program, 2, s, d, random);
    program.with(Op::SUBI, outer, 1);
    program.jump(Op::JNZ, outer_loop);
    program.plain(Op::HLT);
}

fn recursion(program: &mut Program, random: &mut Random) {
    let [depth, routine, d, s] = four_registers(random);
    let (by_register, saves) = (random.one_in(2), random.one_in(2));
    program.with(Op::LDI, depth, random.between(1, 24) as u8);
    let address = program.with_ahead(Op::LDI, routine);
    let call = |program: &mut Program, start: u8| {
        if by_register {
            program.one(Op::CALLR, routine);
        } else {
            program.jump(Op::CALL, start);
        }
    };
    // A call is two bytes long, HLT behind it one.
    let start = program.here().wrapping_add(3);
    call(program, start);
    program.plain(Op::HLT);
    program.fill(address);
    if saves {
        program.one(Op::PUSH, d);
    }
    busy(program, 3, d, s, random);
    perhaps_print(program, d, random);
    program.one(Op::DEC, depth);
    let out = program.jump_ahead(Op::JZ);
    call(program, start);
    program.fill(out);
    if saves {
        program.one(Op::POP, d);
    }
    program.plain(Op::RET);
}

fn walk(program: &mut Program, random: &mut Random) {
    let [at, left, d, s] = four_registers(random);
    program.with(Op::LDI, at, random.byte());
    program.with(Op::LDI, left, random.between(1, 40) as u8);
    let again = program.here();
    program.two(Op::LDR, d, at);
    perhaps_print(program, d, random);
    busy(program, 2, d, s, random);
    program.two(Op::STR, d, at);
    program.one(random.pick(&[Op::INC, Op::DEC]), at);
    program.one(Op::DEC, left);
    program.jump(Op::JNZ, again);
    program.plain(Op::HLT);
}

fn copy(program: &mut Program, random: &mut Random) {
    let [from, to, left, d] = four_registers(random);
    program.with(Op::LDI, from, random.byte());
    program.with(Op::LDI, to, random.byte());
    program.with(Op::LDI, left, random.between(1, 30) as u8);
    let again = program.here();
    program.two(Op::LDR, d, from);
    program.two(Op::STR, d, to);
    program.one(Op::INC, from);
    program.one(Op::INC, to);
    program.one(Op::DEC, left);
    program.jump(Op::JNZ, again);
    program.plain(Op::HLT);
}

fn echo(program: &mut Program, random: &mut Random) {
    let [d, s, ..] = four_registers(random);
    let again = program.here();
    program.one(Op::IN, d);
    let out = program.jump_ahead(Op::JZ);
    busy(program, 2, d, s, random);
    program.one(Op::PRINT, d);
    program.jump(Op::JMP, again);
    program.fill(out);
    program.plain(Op::HLT);
}

fn reading(program: &mut Program, random: &mut Random) {
    let [left, d, sum, _] = four_registers(random);
    program.with(Op::LDI, left, random.between(1, 20) as u8);
    let again = program.here();
    program.one(Op::IN, d);
    program.two(Op::ADD, sum, d);
    program.one(Op::PRINT, d);
    program.one(Op::DEC, left);
    program.jump(Op::JNZ, again);
    program.one(Op::PRINT, sum);
    program.plain(Op::HLT);
}

fn text(program: &mut Program, random: &mut Random) {
    let [at, d, ..] = four_registers(random);
    let start = program.with_ahead(Op::LDI, at);
    let again = program.here();
    program.two(Op::LDR, d, at);
    let out = program.jump_ahead(Op::JZ);
    program.one(Op::PRINT, d);
    program.one(Op::INC, at);
    program.jump(Op::JMP, again);
    program.fill(out);
    program.plain(Op::HLT);
    program.fill(start);
    for _ in 0..random.below(16) {
        program.data(&[random.between(1, 255) as u8]);
    }
    program.data(&[0]);
}

fn printing(program: &mut Program, random: &mut Random) {
    let [left, d, s, _] = four_registers(random);
    program.with(Op::LDI, left, random.between(1, 40) as u8);
    let again = program.here();
    program.one(Op::PRINT, d);
    busy(program, 3, d, s, random);
    program.one(Op::DEC, left);
    program.jump(Op::JNZ, again);
    program.plain(Op::HLT);
}

fn division(program: &mut Program, random: &mut Random) {
    let [divisor, d, s, _] = four_registers(random);
    program.with(Op::LDI, divisor, random.between(0, 20) as u8);
    let again = program.here();
    program.two(Op::MOV, d, s);
    program.two(random.pick(&[Op::DIV, Op::MOD]), d, divisor);
    perhaps_print(program, d, random);
    busy(program, 2, s, d, random);
    program.one(Op::DEC, divisor);
    program.jump(Op::JMP, again);
}

fn rewriting(program: &mut Program, random: &mut Random) {
    let [value, d, s, _] = four_registers(random);
    program.with(Op::LDI, value, random.between(0, 20) as u8);
    let again = program.here();
    // The value stands in the third byte of the instruction behind this one.
    program.with(Op::STORE, value, again.wrapping_add(5));
    program.with(random.pick(&[Op::DIVI, Op::MODI]), d, 1);
    perhaps_print(program, d, random);
    busy(program, 2, d, s, random);
    program.one(Op::DEC, value);
    program.jump(Op::JMP, again);
}

fn filling(program: &mut Program, random: &mut Random) {
    let [d, s, routine, _] = four_registers(random);
    match random.below(3) {
        0 => {
            let again = program.here();
            program.one(Op::PUSH, d);
            busy(program, 2, d, s, random);
            program.jump(Op::JMP, again);
        }
        1 => {
            let again = program.here();
            busy(program, 2, d, s, random);
            program.jump(Op::CALL, again);
        }
        _ => {
            let address = program.with_ahead(Op::LDI, routine);
            program.fill(address);
            busy(program, 2, d, s, random);
            program.one(Op::CALLR, routine);
        }
    }
}

fn emptying(program: &mut Program, random: &mut Random) {
    let [d, s, left, _] = four_registers(random);
    if random.one_in(2) {
        program.with(Op::LDI, left, random.between(1, 12) as u8);
        let again = program.here();
        program.one(Op::PUSH, left);
        program.one(Op::DEC, left);
        program.jump(Op::JNZ, again);
        let again = program.here();
        program.one(Op::POP, d);
        perhaps_print(program, d, random);
        busy(program, 2, s, d, random);
        program.jump(Op::JMP, again);
    } else {
        // The first RET goes back to behind the call, and meets the second with the stack as it was.
        let routine = program.jump_ahead(Op::CALL);
        program.fill(routine);
        busy(program, 2, d, s, random);
        program.plain(Op::RET);
    }
}

fn table(program: &mut Program, random: &mut Random) {
    let [at, target, d, s] = four_registers(random);
    let start = program.with_ahead(Op::LDI, at);
    let again = program.here();
    program.two(Op::LDR, target, at);
    program.one(Op::INC, at);
    program.one(Op::JMPR, target);
    let mut targets = [0; 3];
    for target in &mut targets {
        *target = program.here();
        busy(program, 3, d, s, random);
        perhaps_print(program, d, random);
        program.jump(Op::JMP, again);
    }
    let end = program.here();
    program.plain(Op::HLT);
    program.fill(start);
    for _ in 0..random.between(1, 12) {
        program.data(&[random.pick(&targets)]);
    }
    program.data(&[end]);
}

/// Comes to its limit whatever that is, so it gives the longest runs.
pub fn endless(program: &mut Program, random: &mut Random) {
    let [d, s, ..] = four_registers(random);
    let again = program.here();
    busy(program, 5, d, s, random);
    program.one(Op::INC, s);
    program.jump(random.pick(&[Op::JMP, Op::JNZ]), again);
    program.jump(Op::JMP, again);
}

/// Comes to its limit too, and prints more than any other.
pub fn endless_printing(program: &mut Program, random: &mut Random) {
    let [d, s, ..] = four_registers(random);
    let again = program.here();
    program.one(Op::PRINT, d);
    busy(program, 3, d, s, random);
    program.jump(Op::JMP, again);
}

/// A run of random instructions one behind the other, whose jumps and calls go to the start of one of them.
pub fn jumble(program: &mut Program, random: &mut Random) {
    let ops: Vec<Op> = (0..random.between(4, 20))
        .map(|_| Op::decode(random.between(1, 0x27) as u8).expect("a byte below 0x28 is an opcode"))
        .collect();
    let mut starts = Vec::new();
    let mut next = program.here();
    for op in &ops {
        starts.push(next);
        next = next.wrapping_add(op.instruction_len());
    }
    for op in ops {
        let (byte_2, byte_3) = match op {
            Op::JMP | Op::JZ | Op::JNZ | Op::CALL => (random.pick(&starts), 0),
            _ => (random.byte(), random.byte()),
        };
        program.data(&[op.into(), byte_2, byte_3][..op.instruction_len() as usize]);
    }
    program.plain(Op::HLT);
}

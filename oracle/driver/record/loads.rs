//! Loads: what fits to the byte, what does not, and what is kept.

use std::io::{self, Write};

use crate::case::{Case, Machine};
use crate::draw;
use crate::list::List;
use crate::random::Random;

pub fn loads(list: &mut List<impl Write>, random: &mut Random) -> io::Result<()> {
    list.remark("load: no bytes and few, anywhere; halted, count, registers and the rest of memory are kept")?;
    for start in [0x00, 0x01, 0x02, 0x0F, 0x40, 0x7F, 0x80, 0xC0, 0xE9, 0xEA, 0xF0, 0xFC] {
        for length in 0..4 {
            for halted in [false, true] {
                list.case(small(start, length, halted, random))?;
            }
        }
    }
    list.remark("load, 11: around what fits behind each of the last addresses; where it does not, nothing is loaded")?;
    for start in 0xE8..=0xFF_u8 {
        let fits = 256 - usize::from(start);
        for length in fits - 1..=fits + 2 {
            let halted = random.one_in(2);
            list.case(small(start, length, halted, random))?;
        }
    }
    list.remark("load: bytes that are there already, and zeros over others")?;
    for start in [0x00, 0x33, 0xFD] {
        for program in [[0x00, 0x00, 0x00], [0x11, 0x22, 0x33], [0x11, 0x00, 0x33]] {
            let mut machine = draw::machine(random);
            machine.lay(start, &[0x11, 0x22, 0x33]);
            list.case(Case::load(machine, start, program.to_vec()))?;
        }
    }
    list.remark("load: the whole memory, and one byte more; 255 and 256 bytes at 1")?;
    for (start, length) in [(0, 256), (0, 257), (1, 255), (1, 256)] {
        list.case(small(start, length, false, random))?;
    }
    list.remark("load: short programs anywhere")?;
    for _ in 0..100 {
        let start = random.byte();
        let length = random.below(10) as usize;
        let halted = random.one_in(4);
        list.case(small(start, length, halted, random))?;
    }
    Ok(())
}

/// A load over a memory that holds three bytes beside and beneath the start.
fn small(start: u8, length: usize, halted: bool, random: &mut Random) -> Case {
    let mut machine = Machine { halted, count: draw::count(random), ..draw::machine(random) };
    machine.lay(start.wrapping_sub(1), &random.bytes(3));
    Case::load(machine, start, random.bytes(length))
}

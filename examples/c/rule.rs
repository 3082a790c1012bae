//! rule RULE: runs the rule in the file RULE on the proved machine, with the station's bytes from standard input
//! and a limit of 1024. Standard output gets the bytes that the rule prints, standard error the number of the answer.
//! The exit status is 0 where the rule halted, 1 where it was refused and 2 otherwise. Without RULE it asks the
//! functions that this does not need. README.md says how to build it.

use std::error::Error;
use std::io::{Read, Write};
use std::path::Path;
use std::process::ExitCode;

/// include/nanocore.h in Rust. A slice crosses as its pointer and its length. Edition 2024 wants `unsafe extern`.
#[allow(dead_code)] // all of it is at hand, whatever a program uses
mod ffi {
    #[link(name = "host", kind = "static")]
    extern "C" {
        pub fn nanocore_version() -> usize;
        pub fn nanocore_operations() -> usize;
        pub fn nanocore_fresh(machine: *mut u8, machine_length: usize) -> usize;
        pub fn nanocore_load(
            machine: *mut u8, machine_length: usize,
            program: *const u8, program_length: usize, start: u8,
            values: &mut [usize; 2],
        ) -> usize;
        pub fn nanocore_step(
            machine: *mut u8, machine_length: usize,
            input: *const u8, input_length: usize, place: &mut usize,
            output: *mut u8, output_length: usize, written: &mut usize,
            values: &mut [usize; 2],
        ) -> usize;
        pub fn nanocore_run(
            machine: *mut u8, machine_length: usize,
            input: *const u8, input_length: usize, place: &mut usize,
            output: *mut u8, output_length: usize, written: &mut usize,
            values: &mut [usize; 2],
        ) -> usize;
        pub fn nanocore_decode(opcode: u8, second: u8, third: u8, parts: &mut [usize; 6]) -> usize;
        pub fn nanocore_encode(
            opcode: u8, form: u8, first: u8, second: u8,
            bytes: &mut [u8; 3], length: &mut usize, values: &mut [usize; 2],
        ) -> usize;
        pub fn nanocore_list(
            program: *const u8, program_length: usize, start: u8,
            text: *mut u8, text_length: usize, values: &mut [usize; 2],
        ) -> usize;
        pub fn nanocore_labels(
            source: *const u8, source_length: usize, count: &mut usize,
            places: &mut [u16; 64], lengths: &mut [u16; 64], addresses: &mut [u8; 64],
            values: &mut [usize; 2],
        ) -> usize;
        pub fn nanocore_read_hex(
            text: *const u8, text_length: usize,
            image: *mut u8, image_length: usize, marks: *mut u8, marks_length: usize,
            values: &mut [usize; 2],
        ) -> usize;
        pub fn nanocore_write_hex(
            image: *const u8, image_length: usize, marks: *const u8, marks_length: usize,
            text: *mut u8, text_length: usize, values: &mut [usize; 2],
        ) -> usize;
        pub fn nanocore_transfer(
            machine: *mut u8, machine_length: usize,
            image: *const u8, image_length: usize, marks: *const u8, marks_length: usize,
        ) -> usize;
    }

    // The record's length, and where its fields begin.
    pub const RECORD: usize = 296;
    pub const VERSION: usize = 0;
    pub const SET: usize = 1;
    pub const PC: usize = 2;
    pub const SP: usize = 3;
    pub const FLAGS: usize = 4;
    pub const HALTED: usize = 5;
    pub const COUNT: usize = 8;
    pub const LIMIT: usize = 12;
    pub const REGISTERS: usize = 24;
    pub const MEMORY: usize = 40;

    // An image's length, and its marks'.
    pub const IMAGE: usize = 256;

    // Two of the answers; the header has them all.
    pub const DONE: usize = 0;
    pub const HALTS: usize = 1;
}

/// A machine as its record. Its functions are safe: a slice leads to as many bytes as it says, and what is lent to be
/// written is lent once, so every call gives what the header demands.
struct Machine([u8; ffi::RECORD]);

impl Machine {
    fn fresh() -> Machine {
        let mut record = [0; ffi::RECORD];
        unsafe { ffi::nanocore_fresh(record.as_mut_ptr(), record.len()) };
        Machine(record)
    }

    fn load(&mut self, program: &[u8], start: u8) -> usize {
        let Machine(record) = self;
        unsafe {
            ffi::nanocore_load(
                record.as_mut_ptr(), record.len(),
                program.as_ptr(), program.len(), start,
                &mut [0; 2],
            )
        }
    }

    /// From the first byte of the input on: the answer, and how many bytes were printed.
    fn run(&mut self, input: &[u8], output: &mut [u8]) -> (usize, usize) {
        let Machine(record) = self;
        let mut written = 0;
        let answer = unsafe {
            ffi::nanocore_run(
                record.as_mut_ptr(), record.len(),
                input.as_ptr(), input.len(), &mut 0,
                output.as_mut_ptr(), output.len(), &mut written,
                &mut [0; 2],
            )
        };
        (answer, written)
    }

    fn transfer(&mut self, image: &[u8], marks: &[u8]) -> usize {
        let Machine(record) = self;
        unsafe {
            ffi::nanocore_transfer(
                record.as_mut_ptr(), record.len(),
                image.as_ptr(), image.len(), marks.as_ptr(), marks.len(),
            )
        }
    }

    /// One step, without input or room for output.
    fn step(&mut self) -> usize {
        let Machine(record) = self;
        let (input, output): (&[u8], &mut [u8]) = (&[], &mut []);
        unsafe {
            ffi::nanocore_step(
                record.as_mut_ptr(), record.len(),
                input.as_ptr(), input.len(), &mut 0,
                output.as_mut_ptr(), output.len(), &mut 0,
                &mut [0; 2],
            )
        }
    }
}

/// The first question, as in rule.c: a build that does not know STR knows fewer operations.
fn ask_build() -> Result<(), Box<dyn Error>> {
    match unsafe { (ffi::nanocore_version(), ffi::nanocore_operations()) } {
        (1, 40) => Ok(()),
        (layout, known) => Err(format!("this build has layout {layout} and knows {known} operations").into()),
    }
}

/// Whether the rule halted.
fn run_rule(name: &Path) -> Result<bool, Box<dyn Error>> {
    let rule = std::fs::read(name).map_err(|error| format!("{}: {error}", name.display()))?;
    let mut input = Vec::new();
    std::io::stdin().read_to_end(&mut input)?;
    let mut output = vec![0; 65536]; // no limit can print more
    let mut machine = Machine::fresh();
    let (answer, written) = match machine.load(&rule, 0) {
        ffi::DONE => machine.run(&input, &mut output),
        refused => (refused, 0),
    };
    let mut stdout = std::io::stdout();
    stdout.write_all(&output[..written])?;
    stdout.flush()?;
    writeln!(std::io::stderr(), "answer {answer}")?;
    Ok(answer == ffi::HALTS)
}

/// Asks the other functions for answers that are known, and panics where one differs: a wrong declaration compiles and
/// links as a right one does.
fn ask_others() {
    let program = [0x02, 0x05, 0x80, 0x00]; // LDI R5 0x80, HLT
    let mut machine = Machine::fresh();
    assert_eq!(machine.load(&program, 252), ffi::DONE);
    assert_eq!(machine.step(), ffi::DONE);
    assert_eq!((machine.0[ffi::REGISTERS + 5], machine.0[ffi::PC]), (0x80, 255));
    assert_eq!(machine.step(), ffi::HALTS);

    let mut parts = [0; 6];
    assert_eq!(unsafe { ffi::nanocore_decode(0x02, 0x05, 0x80, &mut parts) }, ffi::DONE);
    assert_eq!(parts, [0x02, 1, 5, 0x80, 3, 1]);
    assert_eq!(unsafe { ffi::nanocore_decode(0x0D, 0xF1, 0x00, &mut parts) }, ffi::DONE);
    assert_eq!(parts, [0x0D, 3, 1, 0, 2, 0]); // INC R1, not in its plain spelling
    let (mut bytes, mut length, mut values) = ([0; 3], 0, [0; 2]);
    let encoded = unsafe { ffi::nanocore_encode(0x02, 1, 5, 0x80, &mut bytes, &mut length, &mut values) };
    assert_eq!((encoded, bytes, length), (ffi::DONE, [0x02, 0x05, 0x80], 3));

    let mut text = [0; 100];
    let listed = unsafe {
        ffi::nanocore_list(program.as_ptr(), program.len(), 252, text.as_mut_ptr(), text.len(), &mut values)
    };
    assert_eq!((listed, &text[..values[0]]), (ffi::DONE, &b"0xFC LDI R5 0x80\n0xFF HLT\n"[..]));

    let source = b"one:\nLDI R5 0x80\nlast:\nHLT\n";
    let (mut count, mut places, mut lengths, mut addresses) = (0, [0; 64], [0; 64], [0; 64]);
    let mapped = unsafe {
        ffi::nanocore_labels(
            source.as_ptr(), source.len(), &mut count,
            &mut places, &mut lengths, &mut addresses,
            &mut values,
        )
    };
    assert_eq!((mapped, count, places[1], lengths[1], addresses[1]), (ffi::DONE, 2, 17, 4, 3));

    let hex = b":0400FC000205800079\n:00000001FF\n";
    let (mut image, mut marks) = ([0; ffi::IMAGE], [0; ffi::IMAGE]);
    let read = unsafe {
        ffi::nanocore_read_hex(
            hex.as_ptr(), hex.len(),
            image.as_mut_ptr(), image.len(), marks.as_mut_ptr(), marks.len(),
            &mut values,
        )
    };
    assert_eq!((read, &image[252..], &marks[251..]), (ffi::DONE, &program[..], &[0, 1, 1, 1, 1][..]));
    let written = unsafe {
        ffi::nanocore_write_hex(
            image.as_ptr(), image.len(), marks.as_ptr(), marks.len(),
            text.as_mut_ptr(), text.len(), &mut values,
        )
    };
    assert_eq!((written, &text[..values[0]]), (ffi::DONE, &hex[..]));
    assert_eq!(machine.transfer(&image, &marks), ffi::DONE);
    assert_eq!((&machine.0[ffi::MEMORY + 252..], machine.0[ffi::PC]), (&program[..], 255));
}

fn main() -> ExitCode {
    let halted = ask_build().and_then(|()| match std::env::args_os().nth(1) {
        Some(name) => run_rule(Path::new(&name)),
        None => {
            ask_others();
            Ok(true)
        }
    });
    match halted {
        Ok(true) => ExitCode::SUCCESS,
        Ok(false) => ExitCode::from(1),
        Err(error) => {
            eprintln!("rule: {error}");
            ExitCode::from(2)
        }
    }
}

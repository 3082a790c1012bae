//! Stand-in for NanoCore's module `error`: the variants and fields that the four files name, and no more.

#[derive(Debug)]
pub enum EmulatorError {
    InvalidOpcode { opcode: u8, pc: u8 },
    InvalidOperand { op: String, expected: String, got: String },
    StackOverflow { sp: u8 },
    StackUnderflow { sp: u8 },
    DivisionByZero { op: String },
    IoError(String),
    MaxCyclesExceeded { cycles: u16 },
    ProgramTooLarge { size: usize, start: u8, max: usize },
}

pub type EmulatorResult<T> = Result<T, EmulatorError>;

#[derive(Debug)]
pub enum AssemblerError {
    SyntaxError { line: usize, message: String },
    UndefinedLabel { label: String, line: usize },
    InvalidRegister { line: usize, name: String },
    InvalidValue { line: usize, value: String },
    InvalidHexAddress { line: usize, value: String },
}

pub type AssemblerResult<T> = Result<T, AssemblerError>;

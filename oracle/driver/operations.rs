//! The operations by what they take and do, for the families that go through all of a kind.

use nanocore::Op;

/// d and s are registers; d takes the result but for CMP.
pub const ON_TWO_REGISTERS: [Op; 9] = [Op::ADD, Op::SUB, Op::MUL, Op::DIV, Op::MOD, Op::AND, Op::OR, Op::XOR, Op::CMP];

/// The second operand is byte three.
pub const ON_REGISTER_AND_VALUE: [Op; 5] = [Op::ADDI, Op::SUBI, Op::MULI, Op::DIVI, Op::MODI];

pub const ON_ONE_REGISTER: [Op; 7] = [Op::INC, Op::DEC, Op::NOT, Op::SHL, Op::SHR, Op::ROL, Op::ROR];

/// A register takes a byte from elsewhere.
pub const LOADING: [Op; 6] = [Op::LDI, Op::MOV, Op::LDA, Op::LDR, Op::POP, Op::IN];

/// All forty, in the order of their bytes.
pub fn all() -> impl Iterator<Item = Op> {
    (0..=255).filter_map(Op::decode)
}

//! The address pass in the Rust's two builds, which differ in `is_label` and `is_constant` alone.

use std::collections::HashMap;

pub struct Build {
    pub map_labels: fn(&str) -> Run,
    is_label: fn(&str) -> bool,
    is_constant: fn(&str) -> bool,
}

pub struct Run {
    /// Two runs answer the same where these are equal: a refused source keeps no labels.
    pub answer: Result<Labels, Refusal>,
    /// How many names there were in the end, those before a refusal too.
    pub recorded: usize,
}

/// The address of each name, as the Rust keeps them: in no order.
pub type Labels = HashMap<String, u8>;

#[derive(PartialEq, Eq)]
pub struct Refusal {
    pub number: u8,
    pub line: usize,
}

/// The same for both crates: to the compiler their types have nothing in common.
macro_rules! build {
    ($nanocore:ident) => {
        Build {
            map_labels: |source| {
                let asm = source.to_owned();
                let mut assembler = $nanocore::assembler::Assembler { asm, ..Default::default() };
                let result = assembler.map_labels();
                let recorded = assembler.labels.len();
                let answer = match result {
                    Ok(()) => Ok(assembler.labels),
                    Err($nanocore::AssemblerError::SyntaxError { line, message }) => Err(refusal(line, &message)),
                    Err(error) => panic!("{error:?} at {source:?}"),
                };
                Run { answer, recorded }
            },
            is_label: $nanocore::assembler::Assembler::is_label,
            is_constant: $nanocore::assembler::Assembler::is_constant,
        }
    };
}

/// The Rust's files as they are published.
pub const UNCHANGED: Build = build!(nanocore);

/// The copy in which a label and a constant line are what document 01 says.
pub const DOCUMENT_01: Build = build!(nanocore_01);

/// Document 01's number, which the Rust has as a message.
fn refusal(line: usize, message: &str) -> Refusal {
    let number = match message {
        "Expected start of string" | "Expected end of string" => 16,
        _ if message.starts_with("Invalid operation: ") => 17,
        _ => panic!("no number for {message:?} in line {line}"),
    };
    Refusal { number, line }
}

/// Whether the two builds differ about what kind of line this is.
pub fn rules_disagree(line: &str) -> bool {
    (UNCHANGED.is_label)(line) != (DOCUMENT_01.is_label)(line)
        || (UNCHANGED.is_constant)(line) != (DOCUMENT_01.is_constant)(line)
}

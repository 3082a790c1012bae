//! The sources that the repository keeps: few enough to be read, each kind of line and each edge among them.

use std::io;

use crate::labels::chance;
use crate::labels::damage::damage;
use crate::labels::every::{self, SHOWN};
use crate::labels::files::Files;
use crate::labels::source::LONGEST;
use crate::operations;
use crate::random::Random;

/// Sources that show one thing each. Those in a row belong together.
const SHORT: [&[&str]; 14] = [
    // Document 01's worked case; nothing at all.
    &["A:\nLDI R0 1\nB:\n.DB 1 2 3\nC:\n", "", "\n", " ", "\n\n\n", "NOP", "NOP\n"],
    // Labels: colons behind, before and inside; names that look like something else.
    &["A:", "A::", "A:::::", ":A:", "::A::", "A:B:", "LDI:", "R0:", "0x10:", "\":", "\"\":", "ldi:", ".:", ".D:", "_:"],
    // No labels: only colons, a blank inside, something behind.
    &[":", "::", ": :", "A :", "A B:", "A: B:", "A: NOP", "A:NOP", "A", ".A", "A:,", ":A", ": A:", "JR 2", "JR"],
    // Operations, whatever stands behind.
    &["NOP :", "OR :", "LDI R0 B:", "LDI A:", "NOP NOP NOP", "NOP \"", "LDI", "LDI R99 R99", "NOP\t:", "NOP .DB 1 2"],
    // One name twice, and with other colons; two names that differ in case, or by a colon before.
    &["A:\nNOP\nA:", "A:\nNOP\nA::", "A:\na:", "A:\nNOP\n:A:", "B:\nNOP\nA:\nNOP\nB:", "A:\nB:\nA:\nNOP\nB::"],
    // `.DB` by its letters: words less one.
    &[".DB", ".DB ", ".DB 1", ".DB 1 2", ".DB  1 \t 2 ", ".DBX 1 2", ".DB1 2", ".DB:", ".DB A:", ".DB \"a b\""],
    &[".DB: 1", ".DB 1;2 3", ".DB ; 1 2", ".DB;", ".DB,1,2", " .DB 1", ".D 1", ".db 1", "DB 1", ". DB 1", "A: .DB 1"],
    // `.STRING` by its letters: between the first quote and the last, and one more.
    &[".STRING \"\"", ".STRING \"a\"", ".STRING \"a b\"", ".STRING\"ab\"", ".STRING \"a\" \"b\"", ".STRING \"\"\""],
    &[".STRINGX \"\"", ".STRING: \"a\"", ".STRING x \"a\" y", ".STRING \"a\":", ".STRING \":\"", " .STRING \" a \" "],
    &[".STRING", ".STRING:", ".STRING a", ".STRING 'a'", ".STRING ;\"\"", ".STRING \"a\";\"", ".STRING \"\"a;\"b\""],
    // A constant by its first word.
    &[".CONST", ".CONST K 1", ".CONST\tK 1", ".CONST K:", ".CONST :", ".CONST \"", ".CONSTX 1", ".CONST:", ".CONST::"],
    &[".CONSTX:", ".CONST: 1", ".CONST;X", ".const K 1", ".CONS 1", "CONST K 1", ".CONST K 1 2 3", ".CONST.DB 1 2"],
    // Comments, which quotes do not keep out.
    &[".STRING \"a\" \"b;c\"", ".STRING \"\"\";\"", ".DB \"a;b c\"", "A\";\":", "NOP \"; A:\"", ".CONST \";\" K"],
    &[";", ";;", "; A:", "A:;", "A: ; B:", "A;:", ";\nA:", "NOP;NOP", "NOP ; \"", "A:;\"", "LDI;:", "; .STRING \"\nA:"],
];

pub fn sources(files: &mut Files) -> io::Result<()> {
    // Always the same seed, so always the same sources.
    let random = &mut Random::from_seed(40);
    for source in SHORT.concat() {
        kept(files, &format!("{source}{SHOWN}"))?;
    }
    for source in SHORT[0] {
        kept(files, source)?;
    }
    operations(files)?;
    blanks(files)?;
    counts(files)?;
    refused_lines(files)?;
    many_names(files)?;
    drawn(files, random)?;
    kept(files, &every::fill("NOP\n", "; as long as may be\nJMP A\nA:\n", "\n", LONGEST))
}

/// Writes a source that can be compared.
fn kept(files: &mut Files, source: &str) -> io::Result<()> {
    assert!(files.source(source)?, "not to be compared: {source:?}");
    Ok(())
}

/// Each operation's length, and a text near its name.
fn operations(files: &mut Files) -> io::Result<()> {
    for (i, op) in operations::all().enumerate() {
        let name: &str = op.into();
        kept(files, &format!("{name} R1 2{SHOWN}"))?;
        let near = match i % 4 {
            0 => format!("NOP\n{}", name.to_lowercase()),
            1 => format!("\n{name}X R1"),
            2 => format!("; {name}\n\n{}", &name[1..]),
            _ => format!("{name}\n{name}: 1"),
        };
        kept(files, &near)?;
    }
    Ok(())
}

/// Each blank where one may stand; bytes that are none; lines that end in CR LF.
fn blanks(files: &mut Files) -> io::Result<()> {
    for byte in [' ', '\t', '\x0B', '\x0C', '\r', '\x08', '\x0E', '\x1C', '\x1F', '\x7F'] {
        kept(files, &format!("{byte}A:{byte}\n.DB{byte}1{byte}{byte}2{SHOWN}"))?;
        kept(files, &format!("LDI{byte}R0 1{SHOWN}"))?;
        kept(files, &format!(".CONST{byte}K 1{SHOWN}"))?;
        kept(files, &format!("NOP\nB{byte}C:{SHOWN}"))?;
    }
    kept(files, "A:\r\nNOP\r\n\r\nB:\r\n")?;
    kept(files, "A:\r\nNOP\rNOP\nB:\r")?;
    kept(files, "\r\r\nA:\n\rNOP\n\r\nWRONG\r\n")
}

/// Counts about the addresses' wrap.
fn counts(files: &mut Files) -> io::Result<()> {
    for count in [2, 254, 255, 256, 257, 513] {
        kept(files, &format!("A:\n.DB{}{SHOWN}", " 1".repeat(count)))?;
        kept(files, &format!("A:\n.STRING \"{}\"{SHOWN}", "s".repeat(count)))?;
    }
    for count in [84, 85, 86] {
        kept(files, &format!("{}A:\nNOP{SHOWN}", "LDI R0 1\n".repeat(count)))?;
    }
    kept(files, &format!(".DB{}\nA:\nJMP A\nB:\n.STRING \"ab\"\nA:{SHOWN}", " 1".repeat(254)))
}

/// The number of a refused line, the earliest of several; labels before it or not.
fn refused_lines(files: &mut Files) -> io::Result<()> {
    for count in [0, 1, 2, 8, 9, 10, 98, 99, 255, 256, 999] {
        kept(files, &format!("{}WRONG\n.STRING\n", "\n".repeat(count)))?;
        kept(files, &format!("A:{}.STRING\nWRONG", "\n".repeat(count + 1)))?;
    }
    Ok(())
}

/// As many names as there may be, and one fewer; then some of them again. Long names that differ in the last byte.
fn many_names(files: &mut Files) -> io::Result<()> {
    for count in [2, 63, 64] {
        let source: String = (1..=count).map(|i| format!("N{i}:\nPUSH R0\n")).collect();
        kept(files, &source)?;
        kept(files, &format!("{source}N2:\nHLT\nN{count}::\nRET\nN1:\n"))?;
        kept(files, &format!("{source}\nN1:\nWRONG"))?;
    }
    let long = "n".repeat(300);
    kept(files, &format!("{long}a:\nNOP\n{long}b:\nNOP\n{long}:\nNOP\n{long}a:"))
}

/// Random sources that can be read, every second one damaged.
fn drawn(files: &mut Files, random: &mut Random) -> io::Result<()> {
    let is_readable = |source: &str| {
        let is_shown = |byte: u8| matches!(byte, b'\t' | b'\n' | b'\r' | 0x20..=0x7E);
        (20..=400).contains(&source.len()) && source.bytes().all(is_shown)
    };
    for i in 0..80 {
        loop {
            let source = chance::short(random);
            let source = if i % 2 == 0 { source } else { damage(&source, random) };
            if is_readable(&source) && files.source(&source)? {
                break;
            }
        }
    }
    Ok(())
}

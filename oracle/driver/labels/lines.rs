//! Random lines, each without its end. Those of `good` are seldom refused, those of `faulty` mostly.

use crate::labels::source::MOST_NAMES;
use crate::operations;
use crate::random::Random;

const BLANKS: [&str; 6] = [" ", "\t", "  ", "\x0B", "\x0C", "\r"];

/// The labels of a source: most are new, some are met again.
#[derive(Default)]
pub struct Names(Vec<String>);

impl Names {
    fn draw(&mut self, random: &mut Random) -> String {
        let is_met_again = self.0.len() == MOST_NAMES || (!self.0.is_empty() && random.one_in(4));
        if is_met_again {
            return self.0[random.below(self.0.len() as u32) as usize].clone();
        }
        let name = name(random);
        if !self.0.contains(&name) {
            self.0.push(name.clone());
        }
        name
    }

    /// A label line.
    pub fn label(&mut self, random: &mut Random) -> String {
        format!("{}{}", self.draw(random), random.pick(&[":", ":", ":", ":", "::", ":::"]))
    }
}

/// A label's name: no blank, no `;`, some byte besides colons and none at its end.
fn name(random: &mut Random) -> String {
    match random.below(16) {
        0..=4 => random.pick(&["A", "B", "C", "X", "LOOP", "END", "start", "main_1", "a.b", "R0", "0x1F", "12"]).into(),
        5..=8 => format!("L{}", random.below(1000)),
        9 => operation(random).into(),
        10 => format!("{}{}", random.pick(&[":", "::", "A:", "A::"]), random.pick(&["A", "B", "LDI"])),
        11 => random.pick(&["\"", "\"\"", "'", ".", ".D", ".STRIN", ".CONSTA", "-", "#", "?!", "A\"B"]).into(),
        // A constant line to the unchanged files.
        12 if random.one_in(8) => ".CONST".into(),
        13 => "N".repeat(random.between(1, 300) as usize),
        14 => {
            let control = random.pick(&['\0', '\x01', '\x08', '\x0E', '\x1B', '\x1C', '\x1F', '\x7F']);
            format!("{}{control}{}", random.pick(&["", "A"]), random.pick(&["", "B"]))
        }
        _ => format!("N{}", printable(12, &[';', ' ', ':'], random)),
    }
}

fn operation(random: &mut Random) -> &'static str {
    let op = operations::all().nth(random.below(40) as usize).expect("forty operations");
    op.into()
}

/// Up to `most` printable characters without those.
fn printable(most: u32, without: &[char], random: &mut Random) -> String {
    let length = random.below(most + 1) as usize;
    let drawn = (0..length).map(|_| char::from(random.between(0x20, 0x7E) as u8));
    drawn.filter(|c| !without.contains(c)).collect()
}

/// What parts two words: mostly a space.
fn gap(random: &mut Random) -> &'static str {
    if random.one_in(6) {
        random.pick(&BLANKS)
    } else {
        " "
    }
}

/// So many words, with a gap before each.
fn words(count: u32, random: &mut Random) -> String {
    let mut words = String::new();
    for _ in 0..count {
        words.push_str(gap(random));
        match random.below(8) {
            0..=2 => words.push_str(&format!("R{}", random.below(16))),
            3..=4 => words.push_str(&random.byte().to_string()),
            5 => words.push_str(&format!("0x{:02X}", random.byte())),
            6 => words.push_str(random.pick(&["A", "LOOP", "'x'", "\"", ",", "K", "R16", ".DB", ":A"])),
            _ => words.push_str(&format!("L{}", random.below(1000))),
        }
    }
    words
}

/// Mostly a few; sometimes so many that an address wraps.
fn count(random: &mut Random) -> u32 {
    match random.below(40) {
        0 => random.between(250, 260),
        1 => random.between(0, 600),
        _ => random.below(9),
    }
}

pub fn good(names: &mut Names, random: &mut Random) -> String {
    match random.below(32) {
        0..=8 => names.label(random),
        9..=18 => format!("{}{}", operation(random), words(random.below(4), random)),
        19..=22 => format!("{}{}", random.pick(&[".DB", ".DB", ".DB", ".DBX", ".DB:"]), words(count(random), random)),
        23..=25 => string(random),
        26..=27 => format!(".CONST{}", words(random.pick(&[2, 2, 2, 0, 1, 3]), random)),
        28 => format!(";{}", printable(30, &[], random)),
        29..=30 => String::new(),
        // An operation to document 01, a label to the unchanged files.
        _ if random.one_in(8) => format!("{} {}", operation(random), names.label(random)),
        _ => "NOP".into(),
    }
}

/// Two quotes or more, mostly with only blanks outside them.
fn string(random: &mut Random) -> String {
    let inside = match random.below(4) {
        0 => "s".repeat(count(random) as usize),
        1 => printable(20, &[';'], random),
        _ => printable(20, &[';', '"'], random),
    };
    let word = random.pick(&[".STRING", ".STRING", ".STRING", ".STRING", ".STRINGX", ".STRING:"]);
    let (before, behind) = random.pick(&[(" ", ""), (" ", ""), (" ", ""), ("", ""), ("\t", " "), (" x ", " y:")]);
    format!("{word}{before}\"{inside}\"{behind}")
}

pub fn faulty(names: &mut Names, random: &mut Random) -> String {
    match random.below(10) {
        0 => format!("{}{}", operation(random).to_lowercase(), words(random.below(3), random)),
        1 => format!("{}{}{}", names.label(random), gap(random), operation(random)),
        2 => format!("{}{}{}", names.label(random), gap(random), names.label(random)),
        3 => format!("A{}:", gap(random)),
        4 => random.pick(&[":", "::", ":::", ": :", "A", "-", "R0", "LDIR0 1", "LDI, R0", "NOP:NOP"]).into(),
        5 => random.pick(&[".db 1", ".D 1", "DB 1", ".string \"a\"", ".CONSTX 1", ".const K 1", ".CONST: 1"]).into(),
        6 => format!(".STRING{}", printable(12, &['"', ';'], random)),
        7 => format!(".STRING ;\"{}\"", printable(5, &[], random)),
        8 => format!("{}{}", operation(random), random.pick(&["X", "_", ":", ".", "\0", "\x1F", "\"", "0", ","])),
        _ => printable(12, &[], random),
    }
}

/// The line with blanks around it and a comment behind, or without.
pub fn dressed(line: &str, random: &mut Random) -> String {
    let mut dressed = String::new();
    for _ in 0..random.pick(&[0, 0, 0, 0, 1, 4]) {
        dressed.push_str(gap(random));
    }
    dressed.push_str(line);
    for _ in 0..random.pick(&[0, 0, 0, 1, 2]) {
        dressed.push_str(gap(random));
    }
    if random.one_in(6) {
        dressed.push(';');
        dressed.push_str(&printable(20, &[], random));
    }
    dressed
}

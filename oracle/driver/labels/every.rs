//! The families that leave nothing out: every short source over a few letters, every byte in every place of a line,
//! every short word, every operation's name, every count up to where addresses wrap, and sources as long as may be.

use std::io;

use crate::labels::files::Files;
use crate::labels::source::{LONGEST, MOST_NAMES};
use crate::words;

/// A label in a line of its own: it shows the address behind what stands before it.
pub const SHOWN: &str = "\nZ:";

pub fn sources(files: &mut Files) -> io::Result<()> {
    tokens(files)?;
    letters(files)?;
    whole_lines(files)?;
    beginnings(files)?;
    bytes(files)?;
    short_words(files)?;
    words::near_names(|name| shown(files, name))?;
    counts(files)?;
    names(files)?;
    longest(files)
}

/// Writes a source with the label behind it.
fn shown(files: &mut Files, source: &str) -> io::Result<()> {
    files.source(&format!("{source}{SHOWN}"))?;
    Ok(())
}

/// Visits `text` with up to `most` of the letters behind it.
fn every_string(
    text: &mut String,
    letters: &[&str],
    most: usize,
    visit: &mut impl FnMut(&str) -> io::Result<()>,
) -> io::Result<()> {
    visit(text)?;
    if most > 0 {
        for letter in letters {
            let length = text.len();
            text.push_str(letter);
            every_string(text, letters, most - 1, visit)?;
            text.truncate(length);
        }
    }
    Ok(())
}

/// What the pass tells apart, in every order.
fn tokens(files: &mut Files) -> io::Result<()> {
    let tokens = ["A", ":", " ", "\n", ";", "\"", ".DB", ".STRING", ".CONST", "NOP", "LDI"];
    every_string(&mut String::new(), &tokens, 5, &mut |source| {
        files.source(source)?;
        shown(files, source)
    })
}

fn letters(files: &mut Files) -> io::Result<()> {
    every_string(&mut String::new(), &["A", ":", " ", "\n", ";"], 7, &mut |source| {
        files.source(source)?;
        Ok(())
    })
}

/// Lines of each kind, in every order; two of one name, and a faulty one.
fn whole_lines(files: &mut Files) -> io::Result<()> {
    let lines = ["A:", "A::", "B:", "NOP", "LDI R0 1", ".DB 1 2", ".STRING \"abc\"", ".CONST A 1", "A"];
    let lines = lines.map(|line| format!("{line}\n"));
    every_string(&mut String::new(), &lines.each_ref().map(String::as_str), 5, &mut |source| {
        files.source(source)?;
        Ok(())
    })
}

/// Lines that begin alike, with other blanks and with quotes behind that.
fn beginnings(files: &mut Files) -> io::Result<()> {
    for beginning in [".DB", ".STRING", ".CONST", "LDI"] {
        let letters = ["A", " ", "\t", "\r", ":", ";", "\""];
        every_string(&mut beginning.to_string(), &letters, 5, &mut |source| shown(files, source))?;
    }
    Ok(())
}

/// Every byte of ASCII in place of each byte of some lines, and between any two.
fn bytes(files: &mut Files) -> io::Result<()> {
    for line in ["A:", "A::;a", "NOP", "LDI R0 1", ".DB 1 2", ".STRING \"ab\"", ".CONST K 1", "; note"] {
        for byte in (0..=0x7F).map(char::from) {
            for i in 0..=line.len() {
                let (before, after) = line.split_at(i);
                shown(files, &format!("{before}{byte}{after}"))?;
                if let Some(rest) = after.get(1..) {
                    shown(files, &format!("{before}{byte}{rest}"))?;
                }
            }
        }
    }
    Ok(())
}

/// Every word of up to three upper-case letters, the operations' names of that length among them.
fn short_words(files: &mut Files) -> io::Result<()> {
    let letters: Vec<String> = ('A'..='Z').map(String::from).collect();
    let letters: Vec<&str> = letters.iter().map(String::as_str).collect();
    every_string(&mut String::new(), &letters, 3, &mut |source| shown(files, source))
}

/// So many words, bytes of a string and lines, past two wraps of the address; and refusals in each line up to there.
fn counts(files: &mut Files) -> io::Result<()> {
    for count in 0..=600 {
        shown(files, &format!(".DB{}", " 1".repeat(count)))?;
        shown(files, &format!(".STRING \"{}\"", "s".repeat(count)))?;
        shown(files, &"NOP\n".repeat(count))?;
        shown(files, &"LDI R0 1\n".repeat(count))?;
        files.source(&format!("{}WRONG", "\n".repeat(count)))?;
        files.source(&format!("{}.STRING", "A:\n".repeat(count)))?;
    }
    Ok(())
}

/// So many names, each at an address of its own; and the same followed by all of them again, the last one first, which
/// alters nothing but addresses.
fn names(files: &mut Files) -> io::Result<()> {
    for count in 0..=MOST_NAMES {
        let once: Vec<String> = (0..count).map(|i| format!("N{i}:\nPUSH R0\n")).collect();
        let twice: String = once.iter().chain(once.iter().rev()).map(String::as_str).collect();
        files.source(&once.concat())?;
        files.source(&twice)?;
    }
    Ok(())
}

/// Sources of all the bytes that there may be, and of some fewer.
fn longest(files: &mut Files) -> io::Result<()> {
    for length in LONGEST - 3..=LONGEST {
        for filling in ["\n", " ", "A", ":", ";", "A:\n", "NOP\n", "A\n", "\r\n"] {
            files.source(&fill("", filling, "", length))?;
            files.source(&fill("", filling, "\nZ:", length))?;
            files.source(&fill("", filling, "\n.STRING", length))?;
        }
        shown(files, &fill(".DB", " 1", "", length - SHOWN.len()))?;
        shown(files, &fill(".STRING \"", "s", "\"", length - SHOWN.len()))?;
        files.source(&fill("", "A", ":", length))?;
        files.source(&fill("A", ":", "", length))?;
    }
    Ok(())
}

/// A source of that length: what it begins with, a filling as often as it takes, what it ends in.
pub fn fill(beginning: &str, filling: &str, end: &str, length: usize) -> String {
    let mut source = beginning.to_string();
    source.extend(filling.chars().cycle().take(length - beginning.len() - end.len()));
    source.push_str(end);
    source
}

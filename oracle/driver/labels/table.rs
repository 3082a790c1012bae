//! The line that says what a source is answered: FORMAT.md.

use std::fmt::Write;

use crate::labels::pass::{Labels, Refusal, DOCUMENT_01};
use crate::labels::source;

pub fn line(source: &str, answer: &Result<Labels, Refusal>) -> String {
    let mut line = String::new();
    match answer {
        Ok(labels) => {
            line.push_str("mapped");
            for (place, name) in in_order(source, labels) {
                write!(line, " {place} {} {}", name.len(), labels[&name]).expect("a string takes what is written");
            }
        }
        Err(Refusal { number, line: at }) => {
            write!(line, "refused {number} {at}").expect("a string takes what is written");
        }
    }
    line.push('\n');
    line
}

/// The names in order of first appearance, each with its place there.
///
/// The Rust keeps neither order nor places, but it tells them: asked for the source's first lines only, it has recorded
/// just the names that appear there. So a name that it did not have a line before first appears in that line.
fn in_order(source: &str, labels: &Labels) -> Vec<(usize, String)> {
    let mut found: Vec<(usize, String)> = Vec::new();
    // No other line records a name. Were that wrong, one of the assertions below would say so.
    for line in source::lines(source).filter(|line| line.text.ends_with(':')) {
        if found.len() == labels.len() {
            break;
        }
        let Ok(first_lines) = (DOCUMENT_01.map_labels)(&source[..line.end]).answer else {
            panic!("refused only when cut after byte {}: {source:?}", line.end);
        };
        let is_found = |name: &String| found.iter().any(|(_, earlier)| earlier == name);
        let mut new: Vec<String> = first_lines.into_keys().filter(|name| !is_found(name)).collect();
        assert!(new.len() <= 1, "two names in one line: {new:?} in {source:?}");
        if let Some(name) = new.pop() {
            assert!(source[line.place..].starts_with(&name), "{name:?} is not at {}: {source:?}", line.place);
            found.push((line.place, name));
        }
    }
    assert!(found.len() == labels.len(), "not every name was found: {source:?}");
    found
}

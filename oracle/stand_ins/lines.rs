//! Document 01's rules for two kinds of line, in place of the bodies of `is_label` and `is_constant` in `assembler.rs`.
//!
//! They get a line as those do: trimmed, cut at its first `;` and trimmed.

/// A label ends in `:`, has no blank and some byte besides colons.
pub fn is_label(l: &str) -> bool {
    l.ends_with(':') && !l.contains(char::is_whitespace) && l.chars().any(|c| c != ':')
}

/// A constant line's first word is `.CONST`.
pub fn is_constant(l: &str) -> bool {
    l.split_whitespace().next() == Some(".CONST")
}

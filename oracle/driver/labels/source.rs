//! A source's lines, and which sources document 01 lets be compared.

/// The longest source; one more byte and the answer is 15, which the Rust does not have.
pub const LONGEST: usize = 16_384;

/// The most names; one more and the answer is 18, which the Rust does not have.
pub const MOST_NAMES: usize = 64;

const BLANKS: [char; 6] = [' ', '\t', '\n', '\x0B', '\x0C', '\r'];

pub struct Line<'a> {
    /// Trimmed, cut at its first `;` and trimmed.
    pub text: &'a str,
    /// Where the text begins in the source.
    pub place: usize,
    /// Where the next line begins.
    pub end: usize,
}

pub fn lines(source: &str) -> impl Iterator<Item = Line<'_>> {
    let mut end = 0;
    source.split_inclusive('\n').map(move |line| {
        let text = line.trim_start_matches(BLANKS);
        let place = end + (line.len() - text.len());
        end += line.len();
        let text = text.split(';').next().unwrap_or(text).trim_end_matches(BLANKS);
        Line { text, place, end }
    })
}

/// Whether a source may be compared, as far as its bytes tell: neither 15 nor a lone quote.
pub fn may_be_compared(source: &str) -> bool {
    let is_lone_quote = |line: &str| line.starts_with(".STRING") && line.matches('"').count() == 1;
    source.len() <= LONGEST && source.is_ascii() && !lines(source).any(|line| is_lone_quote(line.text))
}

//! A mistake in a text.

use std::fmt;

/// The most characters of a text that a message shows.
const LONGEST_QUOTE: usize = 40;

/// A part of a text for a message: between quotes, cut, and without characters that would not be seen.
pub fn quoted(text: &str) -> String {
    let mut shown = String::from('`');
    for (place, c) in text.chars().enumerate() {
        if place == LONGEST_QUOTE {
            shown.push_str("..");
            break;
        }
        match c {
            ' '..='~' => shown.push(c),
            c if c.is_alphanumeric() => shown.push(c),
            c => shown.extend(c.escape_unicode()),
        }
    }
    shown.push('`');
    shown
}

/// What was found at a place of a text, and what was expected there. Lines and columns count from 1, columns
/// in characters.
#[derive(Debug, Clone, PartialEq, Eq)]
pub struct Mistake {
    pub line: usize,
    pub column: usize,
    pub found: String,
    pub expected: String,
}

/// Without the file's name, which stands before it: `LINE:COLUMN: found .., expected ..`.
impl fmt::Display for Mistake {
    fn fmt(&self, f: &mut fmt::Formatter<'_>) -> fmt::Result {
        let Mistake {
            line,
            column,
            found,
            expected,
        } = self;
        write!(f, "{line}:{column}: found {found}, expected {expected}")
    }
}

/// The bytes as text, or the place of the first that is none.
pub fn utf8(source: &[u8]) -> Result<&str, Mistake> {
    std::str::from_utf8(source).map_err(|error| {
        let (before, rest) = source.split_at(error.valid_up_to());
        let before = std::str::from_utf8(before).expect("so much is valid");
        let line = before.rsplit('\n').next().expect("there is a last line");
        Mistake {
            line: 1 + before.matches('\n').count(),
            column: 1 + line.chars().count(),
            found: format!("the byte {:02X}", rest[0]),
            expected: "text in UTF-8".to_string(),
        }
    })
}

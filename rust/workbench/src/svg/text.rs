//! Texts of the picture.

use std::fmt;

/// For names, titles and digests: letters that look alike are told apart in it, and its widths are known.
pub const MONOSPACE: &str = "Consolas, Menlo, 'DejaVu Sans Mono', monospace";

/// The type of sentences.
pub const SIZE: u32 = 14;

/// A text at a place of the picture.
pub struct Text<'a> {
    /// Where it begins, or ends if `look` says so.
    pub x: u32,
    /// The line that its letters stand on.
    pub y: u32,
    pub size: u32,
    /// Further attributes.
    pub look: &'a str,
    pub words: &'a str,
}

impl<'a> Text<'a> {
    /// A sentence that begins at a place.
    pub fn sentence(x: u32, y: u32, words: &'a str) -> Text<'a> {
        Text {
            x,
            y,
            size: SIZE,
            look: "",
            words,
        }
    }
}

impl fmt::Display for Text<'_> {
    fn fmt(&self, f: &mut fmt::Formatter<'_>) -> fmt::Result {
        let Text {
            x,
            y,
            size,
            look,
            words,
        } = self;
        let words = escaped(words);
        writeln!(
            f,
            "<text x=\"{x}\" y=\"{y}\" font-size=\"{size}\"{look}>{words}</text>"
        )
    }
}

/// The attributes of a text in type whose letters have one width, pressed together where it would be too wide.
pub fn monospace(words: &str, size: u32, limit: u32) -> String {
    let pressed = match width(words, size) > limit {
        true => format!(" textLength=\"{limit}\" lengthAdjust=\"spacingAndGlyphs\""),
        false => String::new(),
    };
    format!(" font-family=\"{MONOSPACE}\"{pressed}")
}

/// The width of a text in such type. Letters of some scripts take twice the width of Latin ones.
pub fn width(words: &str, size: u32) -> u32 {
    let letter = |c: char| if c < FIRST_WIDE { 1 } else { 2 };
    let letters: u64 = words.chars().map(letter).sum();
    let hundredths = letters * LETTER_WIDTH * u64::from(size);
    u32::try_from(hundredths.div_ceil(100)).unwrap_or(u32::MAX)
}

/// Hundredths of the type's size.
const LETTER_WIDTH: u64 = 61;

/// From here on there are scripts with wide letters.
const FIRST_WIDE: char = '\u{1100}';

/// A text for XML. Characters that XML does not take, and others that steer printers, are replaced.
pub fn escaped(text: &str) -> String {
    let mut escaped = String::with_capacity(text.len());
    for c in text.chars() {
        match c {
            '&' => escaped.push_str("&amp;"),
            '<' => escaped.push_str("&lt;"),
            '>' => escaped.push_str("&gt;"),
            '"' => escaped.push_str("&quot;"),
            '\u{FFFE}' | '\u{FFFF}' => escaped.push(char::REPLACEMENT_CHARACTER),
            c if c.is_control() => escaped.push(char::REPLACEMENT_CHARACTER),
            c => escaped.push(c),
        }
    }
    escaped
}

/// A number with its digits in groups of three.
pub fn grouped(number: u64) -> String {
    let digits = number.to_string();
    let mut grouped = String::new();
    for (place, digit) in digits.chars().enumerate() {
        if place > 0 && (digits.len() - place).is_multiple_of(3) {
            grouped.push(',');
        }
        grouped.push(digit);
    }
    grouped
}

//! The words and signs of a line.

use crate::mistake::{quoted, Mistake};

/// The most characters that a name has.
pub const LONGEST_NAME: usize = 64;

/// The signs beside letters and digits that words are made of.
const WORD_SIGNS: [char; 6] = ['_', '.', '[', ']', '/', '-'];

/// The sign that begins a comment.
const COMMENT: char = '#';

fn is_word_character(c: char) -> bool {
    c.is_alphanumeric() || WORD_SIGNS.contains(&c)
}

/// Whether a byte after a word does not belong to it.
pub fn ends_word(byte: u8) -> bool {
    byte.is_ascii() && !is_word_character(char::from(byte))
}

/// Whether a node may have this name.
pub fn is_name(word: &str) -> bool {
    let length = word.chars().count();
    (1..=LONGEST_NAME).contains(&length) && word.chars().all(is_word_character)
}

/// A word or sign of a text, and where it stands.
#[derive(Debug, Clone, Copy, PartialEq, Eq)]
pub struct Token<'a> {
    pub line: usize,
    pub column: usize,
    /// Empty at the end of a line.
    pub text: &'a str,
}

impl<'a> Token<'a> {
    pub fn is_end(&self) -> bool {
        self.text.is_empty()
    }

    pub fn is(&self, text: &str) -> bool {
        self.text == text
    }

    pub fn is_word(&self) -> bool {
        self.text.starts_with(is_word_character)
    }

    /// The mistake that this stands where something else was expected.
    pub fn mistake(&self, expected: impl Into<String>) -> Mistake {
        let found = match self.text {
            "" => "the end of the line".to_string(),
            text => quoted(text),
        };
        self.instead(found, expected)
    }

    /// A mistake at this place.
    pub fn instead(&self, found: impl Into<String>, expected: impl Into<String>) -> Mistake {
        Mistake {
            line: self.line,
            column: self.column,
            found: found.into(),
            expected: expected.into(),
        }
    }
}

/// The words and signs of one line, from left to right.
#[derive(Debug, Clone)]
pub struct Words<'a> {
    line: usize,
    column: usize,
    rest: &'a str,
}

impl<'a> Words<'a> {
    /// Those of a line, which has no line's end in it.
    pub fn new(line: usize, text: &'a str) -> Words<'a> {
        Words {
            line,
            column: 1,
            rest: text,
        }
    }

    /// The next word or sign. At the end of the line, and where a comment begins, there is none.
    pub fn next(&mut self) -> Token<'a> {
        let blank = |c: char| c == ' ' || c == '\t' || c == '\r';
        let blanks = self.rest.len() - self.rest.trim_start_matches(blank).len();
        self.pass(blanks);
        let length = match self.rest.chars().next() {
            None | Some(COMMENT) => 0,
            Some(c) if is_word_character(c) => {
                let after = self.rest.find(|c: char| !is_word_character(c));
                after.unwrap_or(self.rest.len())
            }
            Some(c) => c.len_utf8(),
        };
        let token = Token {
            line: self.line,
            column: self.column,
            text: &self.rest[..length],
        };
        self.pass(length);
        token
    }

    /// The next one, which stays the next.
    pub fn peek(&self) -> Token<'a> {
        self.clone().next()
    }

    fn pass(&mut self, bytes: usize) {
        let (passed, rest) = self.rest.split_at(bytes);
        self.column += passed.chars().count();
        self.rest = rest;
    }

    /// A word or sign that must be there.
    pub fn expect(&mut self, text: &str) -> Result<Token<'a>, Mistake> {
        let token = self.next();
        match token.is(text) {
            true => Ok(token),
            false => Err(token.mistake(quoted(text))),
        }
    }

    /// The end of the line, or a comment.
    pub fn expect_end(&mut self) -> Result<(), Mistake> {
        let token = self.next();
        match token.is_end() {
            true => Ok(()),
            false => Err(token.mistake("the end of the line")),
        }
    }

    /// Takes a word or sign if it comes next.
    pub fn take(&mut self, text: &str) -> bool {
        let comes = self.peek().is(text);
        if comes {
            self.next();
        }
        comes
    }

    /// A number of decimal digits, at most so great.
    pub fn number(&mut self, what: &str, most: u32) -> Result<u32, Mistake> {
        let token = self.next();
        let digits = token.is_word() && token.text.bytes().all(|byte| byte.is_ascii_digit());
        let number = token.text.parse().ok().filter(|&number| number <= most);
        match number {
            Some(number) if digits => Ok(number),
            _ => Err(token.mistake(format!("{what}, a number from 0 to {most}"))),
        }
    }

    /// A number of one byte.
    pub fn byte(&mut self, what: &str) -> Result<u8, Mistake> {
        let number = self.number(what, u32::from(u8::MAX))?;
        Ok(u8::try_from(number).expect("it is at most 255"))
    }
}

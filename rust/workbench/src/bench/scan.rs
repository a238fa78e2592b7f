//! The words and signs of a .bench file, with their places.

use crate::mistake::{quoted, Mistake};

/// The signs that stand for themselves.
const SIGNS: [char; 4] = ['(', ')', ',', '='];

/// The sign that begins a comment.
const COMMENT: char = '#';

/// A line and a column, both from 1, the column in characters.
#[derive(Debug, Clone, Copy, PartialEq, Eq)]
pub struct Place {
    pub line: usize,
    column: usize,
}

impl Place {
    /// A mistake at this place.
    pub fn mistake(self, found: impl Into<String>, expected: impl Into<String>) -> Mistake {
        Mistake {
            line: self.line,
            column: self.column,
            found: found.into(),
            expected: expected.into(),
        }
    }
}

/// What a file is made of.
#[derive(Debug, Clone, Copy, PartialEq, Eq)]
pub enum Sort<'a> {
    /// All characters up to a blank, a sign or a comment.
    Word(&'a str),
    Sign(char),
    LineEnd,
    FileEnd,
}

/// A word, a sign or an end, and where it stands.
#[derive(Debug, Clone, Copy, PartialEq, Eq)]
pub struct Token<'a> {
    pub sort: Sort<'a>,
    pub place: Place,
}

impl Token<'_> {
    /// The mistake that this stands where something else was expected.
    pub fn mistake(&self, expected: impl Into<String>) -> Mistake {
        let found = match self.sort {
            Sort::Word(word) => quoted(word),
            Sort::Sign(sign) => quoted(&sign.to_string()),
            Sort::LineEnd => "the end of the line".to_string(),
            Sort::FileEnd => "the end of the file".to_string(),
        };
        self.place.mistake(found, expected)
    }
}

/// The words and signs of a file, from its first to its last. The file's end is met again and again.
#[derive(Debug, Clone)]
pub struct Scanner<'a> {
    /// What is not scanned yet.
    rest: &'a str,
    place: Place,
}

impl<'a> Scanner<'a> {
    pub fn new(text: &'a str) -> Scanner<'a> {
        Scanner {
            rest: text,
            place: Place { line: 1, column: 1 },
        }
    }

    pub fn next(&mut self) -> Result<Token<'a>, Mistake> {
        self.pass_while(is_blank);
        // A line ends where its comment begins.
        let mut place = self.place;
        if self.rest.starts_with(COMMENT) {
            // A comment ends before a control character, which is then found.
            self.pass_while(|c| is_blank(c) || !c.is_control());
        }
        let sort = match self.rest.chars().next() {
            None => {
                place = self.place;
                Sort::FileEnd
            }
            Some('\n') => {
                self.pass_line_end();
                Sort::LineEnd
            }
            Some(c) if c.is_control() => {
                let found = quoted(&c.to_string());
                return Err(self.place.mistake(found, "no control character"));
            }
            Some(c) if SIGNS.contains(&c) => {
                self.pass(1, 1);
                Sort::Sign(c)
            }
            Some(_) => Sort::Word(self.pass_while(is_in_word)),
        };
        Ok(Token { sort, place })
    }

    fn pass_line_end(&mut self) {
        self.pass(1, 1);
        self.place = Place {
            line: self.place.line + 1,
            column: 1,
        };
    }

    /// Passes the characters up to the first that is not of a sort.
    fn pass_while(&mut self, is_of_sort: impl Fn(char) -> bool) -> &'a str {
        let (mut bytes, mut characters) = (0, 0);
        for c in self.rest.chars().take_while(|&c| is_of_sort(c)) {
            bytes += c.len_utf8();
            characters += 1;
        }
        self.pass(bytes, characters)
    }

    fn pass(&mut self, bytes: usize, characters: usize) -> &'a str {
        let (passed, rest) = self.rest.split_at(bytes);
        self.rest = rest;
        self.place.column += characters;
        passed
    }
}

/// What may stand between words and signs.
fn is_blank(c: char) -> bool {
    matches!(c, ' ' | '\t' | '\r')
}

fn is_in_word(c: char) -> bool {
    !(is_blank(c) || c == COMMENT || c.is_control() || SIGNS.contains(&c))
}

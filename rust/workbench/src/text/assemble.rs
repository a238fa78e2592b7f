//! A text becomes a card.

use timing::Edition;

use super::draft::Draft;
use super::words::{Token, Words};
use super::{edition_of, first_word, resolve, statement};
use crate::card::Card;
use crate::mistake::Mistake;

/// The card that a text describes, or its first mistake.
pub fn assemble(source: &[u8]) -> Result<Card, Mistake> {
    let text = crate::mistake::utf8(source)?;
    let mut lines = text.split('\n').zip(1..);
    let (first, number) = lines.next().expect("a text has one line at least");
    let mut words = Words::new(number, first);
    let word = words.next();
    let Some(edition) = edition_of(source) else {
        let [first, second] = Edition::ALL.map(first_word);
        return Err(word.mistake(format!("`{first}` or `{second}`")));
    };
    words.expect_end()?;
    let mut draft = Draft::new(edition);
    let mut end = word;
    for (line, number) in lines {
        statement::statement(&mut draft, &mut Words::new(number, line))?;
        end = Token {
            line: number,
            column: 1,
            text: "",
        };
    }
    resolve::card(draft, end)
}

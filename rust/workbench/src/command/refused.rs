//! A refusal in words: the library's sentence, its number, what its place is, and a note where another call would
//! do.

use std::io::{self, Write};

use timing::{number, Edition, Refusal, Sheet};

use super::input::Input;
use super::{output, Outcome, Status};
use crate::place::place;

/// Prints a refusal and ends refused.
pub fn refused(input: &Input, refusal: &Refusal) -> Outcome {
    output::to_standard_output(|out| tell(input, refusal, out))?;
    Ok(Status::Refused)
}

/// The sentence, the number, which the pages on refusals go by, and a line for each thing that is known of the place.
pub fn tell(input: &Input, refusal: &Refusal, out: &mut dyn Write) -> io::Result<()> {
    writeln!(out, "{refusal}")?;
    writeln!(out, "number: {}", refusal.number())?;
    if let Some(place) = place(&input.card, &input.file, refusal) {
        writeln!(out, "place: {place}")?;
    }
    if let Some(note) = note(input, refusal) {
        writeln!(out, "note: {note}")?;
    }
    Ok(())
}

/// What a user may have meant.
fn note(input: &Input, refusal: &Refusal) -> Option<&'static str> {
    let card = &input.card;
    if card.lines.is_some() {
        return None;
    }
    if refusal.number() == number::OUTSIDE_RANGE
        && refusal.place() == 0
        && looks_like_text(&card.sheet)
    {
        return Some(
            "this was taken for a sheet; a text begins with the word timing-1 or timing-2",
        );
    }
    let accepted = |edition| Sheet::new(edition, &card.sheet).check().is_ok();
    match card.edition.other() {
        other if accepted(card.edition) || !accepted(other) => None,
        Edition::First => {
            Some("as a sheet of the first edition it is accepted: leave out --edition 2")
        }
        Edition::Second => {
            Some("as a sheet of the second edition it is accepted: give --edition 2")
        }
    }
}

/// Whether the first bytes could be read by a person.
fn looks_like_text(bytes: &[u8]) -> bool {
    let first = &bytes[..bytes.len().min(16)];
    let is_byte_order_mark = bytes.starts_with("\u{FEFF}".as_bytes());
    let readable = |byte: &u8| byte.is_ascii_graphic() || byte.is_ascii_whitespace();
    is_byte_order_mark || (!first.is_empty() && first.iter().all(readable))
}

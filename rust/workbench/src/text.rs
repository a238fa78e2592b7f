//! The text form of a card: one line a thing, read aloud as it stands.
//!
//! A text begins with the word of its edition, `timing-1` or `timing-2`. Then comes a statement a line, in any
//! order; `#` begins a comment.
//!
//! ```text
//! timing-1
//!
//! input section
//! scoop = nand(section, scoop) delay 3 initial X
//!
//! drive section: 0 at 0, 1 at 5
//!
//! watch section
//! watch scoop
//! ```
//!
//! | Statement | What it says |
//! |---|---|
//! | `input NAME` | a node that no module drives |
//! | `NAME = KIND(NAME, ..) delay N initial VALUE` | a module, and its output node with its initial value |
//! | `NAME = KIND(NAME, ..) delay N` | a module whose output node another line declares |
//! | `node NAME initial VALUE` | a driven node, on a line of its own |
//! | `drive NAME: VALUE at N, ..` | events of an input |
//! | `watch NAME, ..` | watched nodes |
//!
//! The kinds are those of [`crate::kind`]; a constant's argument is its value, and a memory has its set before
//! the delay: `memory(data, clock) set {1} delay 0`. Nodes are numbered in the order of the lines that declare
//! them, and modules are recorded in the order of theirs. The events of `drive` lines are put in order by tick and
//! then by node, watched nodes in order by number, so that a text needs no numbers.
//!
//! What no accepted sheet has is written with `raw`, so that a refused sheet can be looked at and mended:
//!
//! | Statement | What it says |
//! |---|---|
//! | `raw node NAME byte N` | a node with a byte that is neither a value nor an input's |
//! | `raw module kind N parameter N output @N inputs @N @N delay N` | a module's record, field by field |
//! | `raw event tick N node NAME value N` | an event after those of `drive` lines, in the order of the lines |
//! | `raw watch NAME` | a watched node after those of `watch` lines, in the order of the lines |
//! | `raw bytes from SECTION: HH HH ..` | the sheet's bytes from that section on, in hexadecimal |
//!
//! Wherever a node is named, `@N` is the node with that number, also where there is none.

mod assemble;
mod draft;
mod resolve;
mod statement;
mod words;
mod write;

pub use assemble::assemble;
pub use words::{is_name, LONGEST_NAME};
pub use write::write;

use timing::Edition;

/// The word that a text of an edition begins with.
pub fn first_word(edition: Edition) -> &'static str {
    match edition {
        Edition::First => "timing-1",
        Edition::Second => "timing-2",
    }
}

/// The edition of a text, by its first word. Anything else is a sheet: no count of nodes begins so.
pub fn edition_of(source: &[u8]) -> Option<Edition> {
    Edition::ALL.into_iter().find(|&edition| {
        let rest = source.strip_prefix(first_word(edition).as_bytes());
        rest.is_some_and(|rest| rest.first().is_none_or(|&byte| words::ends_word(byte)))
    })
}

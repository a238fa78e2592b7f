//! ISCAS .bench netlists as texts of the first edition.
//!
//! A netlist has a statement a line, in any order; `#` begins a comment, and the words are in any case:
//!
//! ```text
//! INPUT(reset)
//! OUTPUT(count)
//! count = DFF(next)
//! next = NOR(reset, count)     # use before definition is usual
//! ```
//!
//! Gates become modules of one or two inputs with one delay for the whole gate, and flip-flops two memories each
//! on the input `clock`. A netlist has no drive, and neither has the text.

mod gate;
mod names;
mod netlist;
mod read;
mod scan;
mod write;

use crate::mistake::Mistake;

/// The text of a netlist, in which each gate has this delay, or the netlist's first mistake. A byte that is no
/// text comes before other mistakes, and what the whole netlist alone shows, such as a name that no statement
/// defines, after them.
///
/// A delay above 10,000 is written as it is, and the library refuses the card.
pub fn import(source: &[u8], delay: u16) -> Result<String, Mistake> {
    let netlist = read::netlist(source)?;
    Ok(write::text(&netlist, delay))
}

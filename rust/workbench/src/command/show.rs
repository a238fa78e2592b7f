//! `timing show`: a sheet becomes a text.

use timing::number;

use super::arguments::Arguments;
use super::input::{self, EDITION, NAMES};
use super::{output, Outcome, Part, Status};
use crate::command::refused::refused;
use crate::text;

pub const PART: Part = Part {
    name: "show",
    help: HELP,
    options: &[NAMES, EDITION, "-o"],
    flags: &[],
    act,
};

const HELP: &str = "\
timing show CARD.sheet [--names CARD.net] [--edition 2] [-o OUT.net]

Prints a sheet as text, or writes it to OUT.net. Assembling the text gives the
same bytes. Nodes have the names that they have in CARD.net, by their numbers,
and n0, n1 .. otherwise. A text is shown in the layout of show, without its
comments.

A sheet that is refused for a record's fields (4 to 16) or for a loop (18) is
shown, too: what no accepted sheet has is written with `raw`. One whose bytes
end too early (2), have a count out of range (3) or are left over (17) is
refused.

Example:
  timing show worked.sheet --names examples/worked.net
";

fn act(arguments: &Arguments) -> Outcome {
    let input = input::card(arguments.file()?, arguments)?;
    let card = &input.card;
    if let Err(refusal) = card.sheet().check() {
        let broken = [
            number::ENDS_INSIDE,
            number::OUTSIDE_RANGE,
            number::LEFT_OVER,
        ];
        if broken.contains(&refusal.number()) && card.lines.is_none() {
            return refused(&input, &refusal);
        }
    }
    let shown = text::write(card);
    match arguments.path("-o") {
        Some(path) => output::to_file(path, |out| out.write_all(shown.as_bytes()))?,
        None => output::to_standard_output(|out| out.write_all(shown.as_bytes()))?,
    }
    Ok(Status::Finished)
}

//! `timing check`: is a card accepted?

use timing::sentence;

use super::arguments::Arguments;
use super::input::{self, Input, EDITION, NAMES};
use super::refused::refused;
use super::several::{self, Answer, Files};
use super::{output, Outcome, Part};

pub const PART: Part = Part {
    name: "check",
    help: HELP,
    options: &[NAMES, EDITION],
    flags: &[STRICT],
    act,
};

const STRICT: &str = "--strict";

const HELP: &str = "\
timing check FILE.. [--strict] [--names CARD.net] [--edition 2]

Checks a text or a sheet. A refusal is told as a sentence, with the section,
the record, its name and its line in the text. --strict also refuses an input
that has no event at tick 0. --names gives a sheet's nodes a text's names.

Of several files, or of a folder's files that end in .net or .sheet, each has
a line, and a table stands at the end. The status is then 2 if one of them
could not be read, and otherwise 1 if one was refused.

Example:
  timing check examples/worked.net examples/c17.net
";

fn act(arguments: &Arguments) -> Outcome {
    let strict = arguments.has(STRICT);
    match several::files(arguments)? {
        Files::Several(files) => {
            several::each(&files, arguments, |input| Ok(checked(input, strict)))
        }
        Files::One(file) => {
            let input = input::card(&file, arguments)?;
            match checked(&input, strict) {
                Ok(count) => output::print(&format!("{}\n", sentence([0, 0, count]))),
                Err(refusal) => refused(&input, &refusal),
            }
        }
    }
}

/// A check's count is 0.
fn checked(input: &Input, strict: bool) -> Answer {
    let sheet = input.card.sheet();
    match strict {
        true => sheet.check_strict().map(|()| 0),
        false => sheet.check().map(|()| 0),
    }
}

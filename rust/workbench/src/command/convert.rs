//! `timing convert`: a sheet in the other edition.

use super::arguments::Arguments;
use super::input::{self, EDITION};
use super::refused::refused;
use super::{output, Failed, Outcome, Part, Status};

pub const PART: Part = Part {
    name: "convert",
    help: HELP,
    options: &[TO, "-o", EDITION],
    flags: &[],
    act,
};

const TO: &str = "--to";

const HELP: &str = "\
timing convert FILE --to 2 -o OUT.sheet
timing convert FILE --to 1 -o OUT.sheet --edition 2

Writes a text or a sheet as a sheet of the other edition: each module's record
gains a third input of 0, or loses it. Both run to the same listing. To the
first edition, a card with a gate of three inputs or a multiplexer is refused
(22). After a refusal nothing is written. A text says its edition itself, and a
sheet is of the first unless --edition 2 is given.

Example:
  timing convert examples/worked.net --to 2 -o worked-2.sheet
";

fn act(arguments: &Arguments) -> Outcome {
    let target = arguments.needed_path("-o")?;
    let Some(to) = arguments.edition(TO)? else {
        return Err(Failed::Use(format!("{TO} is missing")));
    };
    let input = input::card(arguments.file()?, arguments)?;
    if input.card.edition == to {
        let number = to.number();
        return Err(Failed::Use(format!(
            "{}: taken as of edition {number} already; a sheet of the other needs {EDITION} {}",
            input.file,
            to.other().number()
        )));
    }
    match input.card.sheet().convert() {
        Err(refusal) => refused(&input, &refusal),
        Ok(sheet) => {
            output::to_file(target, |out| out.write_all(&sheet))?;
            Ok(Status::Finished)
        }
    }
}

//! `timing assemble`: a text becomes a sheet.

use super::arguments::Arguments;
use super::{input, output, Outcome, Part, Status};
use crate::command::input::Input;
use crate::place::place;

pub const PART: Part = Part {
    name: "assemble",
    help: HELP,
    options: &["-o"],
    flags: &[],
    act,
};

const HELP: &str = "\
timing assemble CARD.net -o CARD.sheet

Writes the sheet that a text describes. A mistake in the text is told with its
file, line and column, what was found and what was expected; the status is then
2, and nothing is written. The sheet is written as the text has it: where a
check refuses it, a line on standard error says so, and timing check says more.

Nodes are numbered in the order of the lines that declare them, and modules
keep the order of their lines. Events are put in order by tick and then by
node, watched nodes by number.

Example:
  timing assemble examples/worked.net -o worked.sheet
";

fn act(arguments: &Arguments) -> Outcome {
    let file = arguments.file()?;
    let target = arguments.needed_path("-o")?;
    let card = input::assembled(file, &input::bytes(file)?)?;
    output::to_file(target, |out| out.write_all(&card.sheet))?;
    if let Err(refusal) = card.sheet().check() {
        let file = file.display().to_string();
        let input = Input { card, file };
        let place = place(&input.card, &input.file, &refusal);
        let place = place.map_or_else(String::new, |place| format!("; place: {place}"));
        output::complain(&format!(
            "{} is written, but {refusal}{place}",
            target.display()
        ));
    }
    Ok(Status::Finished)
}

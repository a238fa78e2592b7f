//! `timing pulses`: what is too short for a coil.

use timing::sentence;

use super::arguments::Arguments;
use super::input::{self, EDITION, NAMES};
use super::refused::refused;
use super::run::{whole, HORIZON};
use super::{output, Outcome, Part, Status};
use crate::print;

pub const PART: Part = Part {
    name: "pulses",
    help: HELP,
    options: &[HORIZON, WIDTH, NAMES, EDITION],
    flags: &[],
    act,
};

const WIDTH: &str = "--width";

const HELP: &str = "\
timing pulses FILE --horizon N --width W [--names CARD.net] [--edition 2]

Runs a text or a sheet to the horizon and prints each pulse of a watched node
that is shorter than the width, 1 to 10,000 ticks: the answer, then a line for
each pulse with start, name and length. A pulse begins with a change after
tick 0 and ends with a change below the horizon, and may be 0, 1, X or Z.

Example:
  timing pulses examples/worked.net --horizon 12 --width 5
";

fn act(arguments: &Arguments) -> Outcome {
    let horizon = arguments.needed_number(HORIZON)?;
    let width = arguments.needed_number(WIDTH)?;
    let input = input::card(arguments.file()?, arguments)?;
    let pulses = match whole(&input, input.card.sheet().pulses_whole(horizon, width))? {
        Ok(pulses) => pulses,
        Err(refusal) => return refused(&input, &refusal),
    };
    let count = u32::try_from(pulses.len()).expect("counts have 32 bits");
    output::to_standard_output(|out| {
        writeln!(out, "{}", sentence([0, 0, count]))?;
        print::pulses(&input.card, &pulses, out)
    })?;
    Ok(Status::Finished)
}

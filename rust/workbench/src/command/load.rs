//! `timing load`: a sheet with a drive that is drawn from a seed.

use super::arguments::Arguments;
use super::input::{self, EDITION};
use super::refused::refused;
use super::{output, Outcome, Part, Status};

pub const PART: Part = Part {
    name: "load",
    help: HELP,
    options: &[SEED, COUNT, "-o", EDITION],
    flags: &[],
    act,
};

const SEED: &str = "--seed";
const COUNT: &str = "--count";

const HELP: &str = "\
timing load FILE --seed S --count N -o OUT.sheet [--edition 2]

Writes a text or a sheet as a sheet with another drive: an event at tick 0 for
each input, and N more, 1 to 64 ticks apart, drawn from the seed. Cards with
the same inputs get the same drive from one seed and count, so their listings
can be laid side by side. Inputs and N are 1,024 together at the most (26).
After a refusal nothing is written. timing show OUT.sheet --names FILE shows
what was drawn, with the names of a text.

Example:
  timing load examples/worked.net --seed 7 --count 20 -o loaded.sheet
";

fn act(arguments: &Arguments) -> Outcome {
    let target = arguments.needed_path("-o")?;
    let seed = arguments.needed_number(SEED)?;
    let count = arguments.needed_number(COUNT)?;
    let input = input::card(arguments.file()?, arguments)?;
    match input.card.sheet().load(seed, count) {
        Err(refusal) => refused(&input, &refusal),
        Ok(sheet) => {
            output::to_file(target, |out| out.write_all(&sheet))?;
            Ok(Status::Finished)
        }
    }
}

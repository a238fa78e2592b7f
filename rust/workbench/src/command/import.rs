//! `timing import`: an ISCAS netlist becomes a text.

use super::arguments::Arguments;
use super::{input, output, Failed, Outcome, Part, Status};
use crate::bench;

pub const PART: Part = Part {
    name: "import",
    help: HELP,
    options: &[DELAY, "-o"],
    flags: &[],
    act,
};

const DELAY: &str = "--delay";

/// The delay of a gate where none is asked for.
const USUAL_DELAY: u32 = 1;

/// The longest delay that a card accepts.
const LONGEST_DELAY: u32 = 10_000;

const HELP: &str = "\
timing import FILE.bench [--delay N] [-o OUT.net]

Prints an ISCAS .bench netlist as a text of the first edition, or writes it to
OUT.net. Gates have delay N, 1 if none is given, and are X at first; those of
more than two inputs become trees. A flip-flop becomes two memories on an input
`clock`: it takes its input just before the clock rises and shows it a tick
after. The outputs are watched. Inputs have no events: add `drive` lines, or a
drive by timing load. A mistake is told with file, line and column, and the
status is then 2.

Example:
  timing import examples/c17.bench -o c17.net
";

fn act(arguments: &Arguments) -> Outcome {
    let file = arguments.file()?;
    let delay = arguments.number(DELAY)?.unwrap_or(USUAL_DELAY);
    let delay = match u16::try_from(delay) {
        Ok(short) if delay <= LONGEST_DELAY => short,
        _ => {
            return Err(Failed::Use(format!(
                "{DELAY} {delay} is above {LONGEST_DELAY}"
            )))
        }
    };
    let text = bench::import(&input::bytes(file)?, delay)
        .map_err(|mistake| Failed::Work(format!("{}:{mistake}", file.display())))?;
    match arguments.path("-o") {
        Some(path) => output::to_file(path, |out| out.write_all(text.as_bytes()))?,
        None => output::to_standard_output(|out| out.write_all(text.as_bytes()))?,
    }
    Ok(Status::Finished)
}

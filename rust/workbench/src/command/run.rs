//! `timing run`: the listing of a card, and its pictures.

use std::io::Write;
use std::path::Path;

use timing::{sentence, Failure, Listing, Refusal};

use super::arguments::Arguments;
use super::input::{self, Input, EDITION, NAMES};
use super::refused::refused;
use super::several::{self, Files};
use super::{output, Failed, Outcome, Part, Status};
use crate::run::Run;
use crate::{print, svg, vcd};

pub const PART: Part = Part {
    name: "run",
    help: HELP,
    options: &[HORIZON, VCD, SVG, FROM, TO, NAMES, EDITION],
    flags: &[],
    act,
};

pub const HORIZON: &str = "--horizon";
const VCD: &str = "--vcd";
const SVG: &str = "--svg";
const FROM: &str = "--from";
const TO: &str = "--to";

const HELP: &str = "\
timing run FILE.. --horizon N [--vcd OUT.vcd] [--svg OUT.svg] [--edition 2]

Runs a text or a sheet to the horizon, 1 to 1,000,000 ticks, and prints its
listing: the answer, then a line for each record with tick, name, value and
end. The listing has all the room that it needs. --names CARD.net gives a
sheet's nodes the names that they have in a text.

--vcd writes a value change dump, which GTKWave opens; one unit of its time is
one tick. --svg draws a timing diagram of the watched nodes, from tick --from
up to --to if these are given. After a refusal neither is written.

Of several files, or of a folder's files that end in .net or .sheet, each has
a line in place of its listing, and a table stands at the end. The status is
then 2 if one of them failed, and otherwise 1 if one was refused.

Example:
  timing run examples/worked.net --horizon 12 --svg worked.svg
";

fn act(arguments: &Arguments) -> Outcome {
    let horizon = arguments.needed_number(HORIZON)?;
    let pictures = Pictures::new(arguments, horizon)?;
    match several::files(arguments)? {
        Files::One(file) => one(&file, arguments, horizon, &pictures),
        Files::Several(_) if pictures.any() => {
            Err(Failed::Use(format!("{VCD} and {SVG} take one file")))
        }
        Files::Several(files) => several::each(&files, arguments, |input| {
            let listing = ran(input, horizon)?;
            Ok(listing.map(|listing| u32::try_from(listing.len()).expect("counts have 32 bits")))
        }),
    }
}

fn one(file: &Path, arguments: &Arguments, horizon: u32, pictures: &Pictures) -> Outcome {
    let input = input::card(file, arguments)?;
    let listing = match ran(&input, horizon)? {
        Ok(listing) => listing,
        Err(refusal) => return refused(&input, &refusal),
    };
    pictures.draw(&input, horizon, &listing)?;
    output::to_standard_output(|out| printed(&input, &listing, out))?;
    Ok(Status::Finished)
}

/// The whole listing of a card.
fn ran(input: &Input, horizon: u32) -> Outcome<Result<Listing, Refusal>> {
    whole(input, input.card.sheet().run_whole(horizon))
}

/// A refusal is an answer; a machine without memory is not.
pub fn whole<T>(input: &Input, outcome: Result<T, Failure>) -> Outcome<Result<T, Refusal>> {
    match outcome {
        Ok(whole) => Ok(Ok(whole)),
        Err(Failure::Refused(refusal)) => Ok(Err(refusal)),
        Err(failure) => Err(Failed::Work(format!("{}: {failure}", input.file))),
    }
}

fn printed(input: &Input, listing: &Listing, out: &mut dyn Write) -> std::io::Result<()> {
    let count = u32::try_from(listing.len()).expect("counts have 32 bits");
    writeln!(out, "{}", sentence([0, 0, count]))?;
    print::listing(&input.card, listing, out)
}

/// The files that a run is drawn to, and the ticks of a diagram.
struct Pictures<'a> {
    vcd: Option<&'a Path>,
    svg: Option<&'a Path>,
    from: u32,
    to: u32,
}

impl<'a> Pictures<'a> {
    fn new(arguments: &'a Arguments, horizon: u32) -> Outcome<Pictures<'a>> {
        let [from, to] = [arguments.number(FROM)?, arguments.number(TO)?];
        let pictures = Pictures {
            vcd: arguments.path(VCD),
            svg: arguments.path(SVG),
            from: from.unwrap_or(0),
            to: to.unwrap_or(horizon),
        };
        if pictures.svg.is_none() && (from.is_some() || to.is_some()) {
            return Err(Failed::Use(format!(
                "{FROM} and {TO} cut a diagram, and {SVG} is missing"
            )));
        }
        let is_cut = from.is_some() || to.is_some();
        if is_cut && (pictures.from >= pictures.to || pictures.to > horizon) {
            let Pictures { from, to, .. } = pictures;
            return Err(Failed::Use(format!(
                "no ticks from {from} up to {to} are in a run to {horizon}"
            )));
        }
        Ok(pictures)
    }

    fn any(&self) -> bool {
        self.vcd.is_some() || self.svg.is_some()
    }

    fn draw(&self, input: &Input, horizon: u32, listing: &Listing) -> Outcome<()> {
        let run = Run {
            title: &input.title(),
            sheet: &input.card.sheet,
            names: &input.card.names,
            watched: &input.card.contents.watched,
            horizon,
            listing,
        };
        if let Some(path) = self.vcd {
            output::to_file(path, |out| vcd::write(&run, out))?;
        }
        if let Some(path) = self.svg {
            output::to_file(path, |out| svg::write(&run, self.from, self.to, out))?;
        }
        Ok(())
    }
}

//! The command `timing`.
//!
//! Each part of it has a file. A part prints its answer to standard output, and what it could not do to
//! standard error.

mod arguments;
mod assemble;
mod check;
mod convert;
mod help;
mod import;
mod input;
mod load;
mod output;
mod pulses;
mod refused;
mod run;
mod several;
mod show;

use std::ffi::OsString;

use arguments::Arguments;

/// How a command ends.
#[derive(Debug, Clone, Copy, PartialEq, Eq, PartialOrd, Ord)]
enum Status {
    Finished,
    Refused,
    /// Wrong use, or a failed read or write.
    Failed,
}

/// What could not be done, for standard error.
#[derive(Debug)]
enum Failed {
    /// Wrong use: the part's help says more.
    Use(String),
    /// A failed read or write.
    Work(String),
    /// Whoever read standard output has gone: nobody is to be told.
    Unread,
}

/// What comes of a command, or of a part of it.
type Outcome<T = Status> = Result<T, Failed>;

/// A part of the command: its name, its help, its options, and what it does.
struct Part {
    name: &'static str,
    help: &'static str,
    /// Options that have a value.
    options: &'static [&'static str],
    flags: &'static [&'static str],
    act: fn(&Arguments) -> Outcome,
}

const PARTS: [Part; 8] = [
    assemble::PART,
    show::PART,
    check::PART,
    run::PART,
    pulses::PART,
    convert::PART,
    load::PART,
    import::PART,
];

/// Does what the arguments ask for, and gives the exit status.
pub fn command(arguments: impl Iterator<Item = OsString>) -> u8 {
    let outcome = act(arguments.collect());
    match outcome {
        Ok(Status::Finished) => 0,
        Ok(Status::Refused) => 1,
        Ok(Status::Failed) => 2,
        Err(failed) => {
            if let Failed::Use(message) | Failed::Work(message) = failed {
                output::complain(&message);
            }
            2
        }
    }
}

fn act(arguments: Vec<OsString>) -> Outcome {
    let Some((first, rest)) = arguments.split_first() else {
        return Err(Failed::Use(format!("what is to be done?\n\n{}", help::ALL)));
    };
    let asks_for_help = |word: &OsString| word == "--help" || word == "-h";
    if asks_for_help(first) || first == "help" {
        return output::print(help::ALL);
    }
    if first == "--version" {
        return output::print(&format!("timing {}\n", timing::VERSION));
    }
    let Some(part) = PARTS.iter().find(|part| first == part.name) else {
        let names = PARTS.map(|part| part.name).join(", ");
        let found = first.to_string_lossy();
        return Err(Failed::Use(format!(
            "{found} is none of {names}: see timing --help"
        )));
    };
    if rest.iter().any(asks_for_help) {
        return output::print(part.help);
    }
    let acted =
        Arguments::new(rest, part.options, part.flags).and_then(|arguments| (part.act)(&arguments));
    acted.map_err(|failed| match failed {
        Failed::Use(message) => Failed::Use(format!("{message}: see timing {} --help", part.name)),
        failed => failed,
    })
}

//! Wrong use is told, with where to read more, and has status 2.

use crate::support::Folder;

#[test]
fn of_each_sort() {
    let folder = Folder::with_worked("of_each_sort");
    for (arguments, told) in [
        (&["run", "worked.net"][..], "--horizon is missing: see timing run --help"),
        (&["run", "--horizon", "12"], "no file is given: see timing run --help"),
        (&["run", "worked.net", "--horizon"], "--horizon has no value: see timing run --help"),
        (
            &["run", "worked.net", "--horizon", "1", "--horizon=2"],
            "--horizon is given twice: see timing run --help",
        ),
        (
            &["run", "worked.net", "--horizon", "+5"],
            "--horizon +5 is no number from 0 to 4294967295: see timing run --help",
        ),
        (
            &["run", "worked.net", "--horizon", "4294967296"],
            "--horizon 4294967296 is no number from 0 to 4294967295: see timing run --help",
        ),
        (&["run", "worked.net", "--horizons", "5"], "there is no option --horizons: see timing run --help"),
        (&["check", "worked.net", "--strict=1"], "there is no option --strict=1: see timing check --help"),
        (
            &["check", "worked.sheet", "--edition", "3"],
            "--edition 3 is no edition: there are 1 and 2: see timing check --help",
        ),
        (
            &["check", "worked.net", "--edition", "2"],
            "worked.net: the text begins with timing-1, and --edition asks for another: see timing check --help",
        ),
        (&["show"], "no file is given: see timing show --help"),
        (
            &["show", "worked.net", "worked.sheet"],
            "one file is taken, and worked.sheet is a second: see timing show --help",
        ),
        (&["assemble", "worked.net"], "-o is missing: see timing assemble --help"),
        (&["convert", "worked.net", "-o", "x"], "--to is missing: see timing convert --help"),
        (
            &["convert", "worked.sheet", "--to", "1", "-o", "x"],
            "worked.sheet: taken as of edition 1 already; a sheet of the other needs --edition 2: see timing convert \
             --help",
        ),
        (&["pulses", "worked.net", "--horizon", "9"], "--width is missing: see timing pulses --help"),
        (&["load", "worked.net", "--seed", "1", "-o", "x"], "--count is missing: see timing load --help"),
        (&["import", "x.bench", "--delay", "10001"], "--delay 10001 is above 10000: see timing import --help"),
        (
            &["run", "worked.net", "--horizon", "12", "--from", "3"],
            "--from and --to cut a diagram, and --svg is missing: see timing run --help",
        ),
        (
            &["run", "worked.net", "--horizon", "12", "--svg", "x", "--from", "5", "--to", "5"],
            "no ticks from 5 up to 5 are in a run to 12: see timing run --help",
        ),
        (
            &["run", "worked.net", "--horizon", "12", "--svg", "x", "--to", "13"],
            "no ticks from 0 up to 13 are in a run to 12: see timing run --help",
        ),
        (
            &["run", "worked.net", "worked.sheet", "--horizon", "12", "--vcd", "x"],
            "--vcd and --svg take one file: see timing run --help",
        ),
        (
            &["check", "worked.net", "worked.sheet", "--names", "worked.net"],
            "--names takes one file: see timing check --help",
        ),
        (
            &["simulate"],
            "simulate is none of assemble, show, check, run, pulses, convert, load, import: see timing --help",
        ),
    ] {
        folder.timing(arguments).failed(&format!("timing: {told}\n"));
    }
    assert_eq!(folder.names(), ["worked.net", "worked.sheet"]);
    let nothing = folder.timing(&[]);
    assert_eq!((nothing.status, nothing.out.as_str()), (2, ""));
    assert!(nothing.err.starts_with("timing: what is to be done?\n"));
}

/// A file whose name looks like an option.
#[test]
fn after_two_dashes() {
    let folder = Folder::with_worked("after_two_dashes");
    folder.write("--strict", folder.read("worked.sheet"));
    folder
        .timing(&["check", "--", "--strict"])
        .finished("finished, with a count of 0\n");
}

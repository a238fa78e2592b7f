//! The examples' Makefile, from a fresh clone on.

use std::fs::{self, File};
use std::path::Path;
use std::time::{Duration, SystemTime};

use plain::worked_run;

use crate::cloned::{Cloned, SOURCES};
use crate::compiled::ARCHIVE;
use crate::header::HEADER;

const PROGRAMS: [&str; 2] = ["worked_run", "run_sheet"];

/// The crate of the library, in whose folder rt is asked for it.
const LIBRARY: &str = "crates/timing_c";

/// What rt was asked for in a clone, a line each time.
fn asked(cloned: &Cloned) -> String {
    fs::read_to_string(cloned.folder.join(LIBRARY).join("asked")).unwrap_or_default()
}

/// The files of a folder of a clone, sorted; none where there is no such folder.
fn files(cloned: &Cloned, folder: &str) -> Vec<String> {
    let entries = fs::read_dir(cloned.folder.join(folder));
    let name = |entry: fs::DirEntry| entry.file_name().into_string().expect("it is plain");
    let mut names: Vec<String> = entries
        .into_iter()
        .flatten()
        .map(|entry| name(entry.expect("it is listed")))
        .collect();
    names.sort();
    names
}

/// The library is asked for once, though both programs need it at the same time, and it stays.
#[test]
fn a_fresh_clone() {
    let cloned = Cloned::new("fresh_clone");
    let before = files(&cloned, "examples/c");
    cloned.make(&["-j2"]).printed();
    assert_eq!(asked(&cloned), "lib\n");
    let printed = cloned.program("worked_run").printed(&[], &[]);
    assert_eq!(printed, worked_run::PRINTED);
    assert_eq!(cloned.make(&["-q"]).status, Some(0));

    cloned.make(&["clean"]).printed();
    assert_eq!(files(&cloned, "target"), ["staticlib"]);
    assert!(cloned.folder.join(ARCHIVE).exists());
    assert_eq!(cloned.make(&["-q"]).status, Some(1));
    cloned.make(&["clean"]).printed();

    let ran = cloned.make(&["-s", "run"]).printed();
    assert_eq!(ran, worked_run::PRINTED);
    assert_eq!(asked(&cloned), "lib\n");
    assert_eq!(files(&cloned, "examples/c"), before);
}

#[test]
fn a_library_that_is_there() {
    let cloned = Cloned::with_archive("library_there");
    let ran = cloned.make(&["-s", "-j2", "all", "run"]).printed();
    assert_eq!(ran, worked_run::PRINTED);
    assert_eq!(asked(&cloned), "");
}

/// What a user gives: the compiler and its flags in either way, the folder, in which other files stay.
#[test]
fn what_can_be_given() {
    let cloned = Cloned::with_archive("given");
    let given = [("CC", "gcc"), ("CFLAGS", "-std=c99 -O1")];
    let by_environment = cloned.make_in(&given, &["-n"]).printed();
    let by_words = cloned.make(&["-n", "CC=gcc", "CFLAGS=-std=c99 -O1"]);
    assert_eq!(by_words.printed(), by_environment);
    let compiled = |name: &str| format!("\ngcc -std=c99 -O1 -I ../../include {name}.c ");
    for name in PROGRAMS {
        assert!(by_environment.contains(&compiled(name)), "{by_environment}");
    }

    fs::create_dir(cloned.folder.join("elsewhere")).expect("it is new");
    let kept = cloned.folder.join("elsewhere/kept");
    fs::write(kept, "").expect("there is room");
    let elsewhere = "BUILD=../../elsewhere";
    cloned.make(&[elsewhere]).printed();
    assert_eq!(
        files(&cloned, "elsewhere"),
        ["kept", "run_sheet", "worked_run"]
    );
    cloned.make(&[elsewhere, "clean"]).printed();
    assert_eq!(files(&cloned, "elsewhere"), ["kept"]);
    assert_eq!(files(&cloned, "target"), ["staticlib"]);
}

/// Dates a file by a second of long ago.
fn date(file: &Path, seconds: u64) {
    let when = SystemTime::UNIX_EPOCH + Duration::from_secs(seconds);
    let dated = File::options().append(true).open(file);
    let dated = dated.and_then(|file| file.set_modified(when));
    dated.unwrap_or_else(|error| panic!("{}: {error}", file.display()));
}

/// A program is made again after each file that it is made of.
#[test]
fn what_a_program_is_made_of() {
    let cloned = Cloned::with_archive("dated");
    cloned.make(&[]).printed();
    let sources = SOURCES.map(|name| format!("examples/c/{name}"));
    let parts = [&sources[..], &[HEADER, ARCHIVE].map(String::from)].concat();
    for part in &parts {
        date(&cloned.folder.join(part), 1_000);
    }
    for name in PROGRAMS {
        date(&cloned.program(name).path, 2_000);
    }
    let is_made = || cloned.make(&["-q"]).status == Some(0);
    assert!(is_made());
    for part in &parts {
        date(&cloned.folder.join(part), 3_000);
        assert!(!is_made(), "{part}");
        date(&cloned.folder.join(part), 1_000);
        assert!(is_made(), "{part}");
    }
}

//! What the header says of the archive: it offers the functions that are declared, keeps no variables, and
//! asks for memcpy and memset alone. The tools that read it come with gcc.

use std::process::Command;

use compare::repository;

use crate::compiled::ARCHIVE;
use crate::header::functions;

/// The words of each line that a tool prints of the archive.
fn lines(tool: &str, option: &str) -> Vec<Vec<String>> {
    let output = Command::new(tool)
        .current_dir(repository())
        .args([option, ARCHIVE])
        .output()
        .unwrap_or_else(|error| panic!("{tool}: {error}"));
    assert!(output.status.success(), "{tool}: {}", output.status);
    let text = String::from_utf8(output.stdout).expect("it prints text");
    let words = |line: &str| line.split_whitespace().map(String::from).collect();
    text.lines().map(words).collect()
}

/// The bytes of code and constants, of variables with a first value, and of other variables.
#[test]
fn no_variables() {
    let lines = lines("size", "--format=berkeley");
    assert_eq!(lines[0][..3], ["text", "data", "bss"]);
    assert_eq!(lines[1][1..3], ["0", "0"]);
    assert_eq!(lines.len(), 2, "one object");
}

/// The symbols of one type, as nm says it.
fn symbols(wanted: &str) -> Vec<String> {
    let of_type = |words: Vec<String>| match &words[..] {
        [name, found, ..] if found == wanted => Some(name.clone()),
        _ => None,
    };
    let mut names: Vec<String> = lines("nm", "-P").into_iter().filter_map(of_type).collect();
    names.sort();
    names
}

#[test]
fn what_it_offers_and_asks_for() {
    let offered = symbols("T");
    assert_eq!(
        offered,
        [
            "timing_check",
            "timing_check_2",
            "timing_check_strict",
            "timing_check_strict_2",
            "timing_convert_1_to_2",
            "timing_convert_2_to_1",
            "timing_describe",
            "timing_load",
            "timing_load_2",
            "timing_pulses",
            "timing_pulses_2",
            "timing_run",
            "timing_run_2"
        ]
    );
    assert_eq!(offered, functions(), "the archive, then the header");
    assert_eq!(symbols("U"), ["memcpy", "memset"]);
}

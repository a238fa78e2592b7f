//! Files of many megabytes.

use std::time::{Duration, Instant};

use workbench::bench::import;

use crate::imported::repeated;

/// The least bytes of a large file.
const LARGE: usize = 16 << 20;

/// More than it takes to read such a file, on a busy machine too. Work in the square of its length would take
/// hours.
const MOST: Duration = Duration::from_secs(60);

/// So many repetitions that the file is large.
fn large(part: &str) -> String {
    part.repeat(LARGE.div_ceil(part.len()))
}

/// The text or the mistake of a file, in time.
fn outcome(source: &str) -> Result<String, String> {
    let start = Instant::now();
    let outcome = import(source.as_bytes(), 1);
    let passed = start.elapsed();
    assert!(passed < MOST, "{passed:?}");
    outcome.map_err(|mistake| mistake.to_string())
}

/// The file becomes what the short one becomes.
fn is_like(source: &str, short: &str) {
    assert_eq!(outcome(source), outcome(short));
    assert!(outcome(short).is_ok(), "{short}");
}

fn is_mistake(source: &str, expected: &str) {
    assert_eq!(outcome(source), Err(expected.to_string()));
}

#[test]
fn comments_and_blanks() {
    let short = "INPUT(a)\nb = NAND(a, b)\n";
    is_like(&(large("# words\n") + short), short);
    is_like(&(large("#") + "\n" + short), short);
    is_like(&(short.to_string() + &large("\r\n")), short);
    is_like(&short.replace(", ", &format!("{},\t", large(" "))), short);
}

#[test]
fn places_far_behind() {
    let nothing =
        "found the end of the file, expected an input or a gate: a sheet has at least one node";
    is_mistake(&large("\n"), &format!("{}:1: {nothing}", LARGE + 1));
    is_mistake(&large(" "), &format!("1:{}: {nothing}", LARGE + 1));
    is_mistake(
        &(large("\t") + "INPUT(a"),
        &format!("1:{}: found the end of the file, expected `)`", LARGE + 8),
    );
    let mut broken = large("#").into_bytes();
    broken.push(0xFF);
    let mistake = import(&broken, 1).unwrap_err().to_string();
    let place = LARGE + 1;
    assert_eq!(
        mistake,
        format!("1:{place}: found the byte FF, expected text in UTF-8")
    );
}

#[test]
fn long_words() {
    let shown = format!("`{}..`", "n".repeat(40));
    is_mistake(
        &format!("INPUT({})", large("n")),
        &format!("1:7: found {shown}, expected a name of 1 to 64 letters, digits and _ . [ ] / -"),
    );
    is_mistake(
        &format!("a {}", large("n")),
        &format!("1:3: found {shown}, expected `=`"),
    );
}

#[test]
fn too_many() {
    let modules = "found module 257, expected at most 256 modules";
    is_mistake(
        &format!("INPUT(a)\ng = AND({}a)", "a,".repeat(99_999)),
        &format!("2:1: {modules}"),
    );
    is_mistake(
        &format!("g = XNOR(g{}", large(",g")),
        &format!("1:1: {modules}"),
    );
    is_mistake(
        &large("g = NOT(g)\n"),
        "2:1: found a second definition of `g`, expected one, and line 1 has it",
    );
    let million = |line: fn(usize) -> String| repeated(1_000_000, line);
    is_mistake(
        &million(|number| format!("INPUT(i{number})")),
        "257:1: found node 257, expected at most 256 nodes",
    );
    is_mistake(
        &million(|number| format!("OUTPUT(i{number})")),
        "257:1: found watched node 257, expected at most 256 watched nodes",
    );
}

#[test]
fn one_output_again_and_again() {
    is_like(&(large("OUTPUT(a)\n") + "INPUT(a)"), "OUTPUT(a)\nINPUT(a)");
}

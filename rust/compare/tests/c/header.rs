//! The header's names and numbers are those of the definitions.

use std::fs;

use compare::repository;
use plain::Edition;

use crate::definitions::{self, leading_number, longest_sheet, Named};

/// The header, seen from the repository's folder.
pub const HEADER: &str = "include/timing.h";

fn header() -> String {
    fs::read_to_string(repository().join(HEADER)).expect("there is a header")
}

/// The enumerators of an enum: "NAME = number".
fn enumerators(name: &str) -> Vec<Named> {
    let header = header();
    let (_, rest) = header.split_once(&format!("enum {name} {{")).unwrap();
    let (body, _) = rest.split_once("};").unwrap();
    let enumerator = |line: &str| {
        let (name, rest) = line.trim().split_once(" = ")?;
        Some((name.to_string(), leading_number(rest)?))
    };
    body.lines().filter_map(enumerator).collect()
}

/// The macros that stand for a number: "#define NAME number".
fn macros() -> Vec<Named> {
    let number = |line: &str| {
        let (name, number) = line.strip_prefix("#define ")?.split_once(' ')?;
        Some((name.to_string(), number.parse().ok()?))
    };
    header().lines().filter_map(number).collect()
}

/// The number of a macro.
pub fn macro_of(name: &str) -> u32 {
    let macros = macros();
    let found = macros.iter().find(|(macro_name, _)| macro_name == name);
    found.unwrap_or_else(|| panic!("no {name} in the header")).1
}

/// A text in C without its comments.
fn uncommented(text: &str) -> String {
    let mut parts = text.split("/*");
    let first = parts.next().unwrap_or_default().to_string();
    let after = parts.map(|part| part.split_once("*/").expect("a comment ends").1);
    first + &after.collect::<String>()
}

/// The functions that a text in C declares, of whatever type they are: what stands before a parenthesis.
/// Lines of the preprocessor are not looked at.
fn functions_of(text: &str) -> Vec<String> {
    let text = uncommented(text);
    let lines = text.lines().filter(|line| !line.starts_with('#'));
    let declarations = lines.collect::<Vec<_>>().join(" ");
    let named = declarations.split(';').filter_map(|declaration| {
        let (before, _) = declaration.split_once('(')?;
        before.rsplit([' ', '*']).find(|word| !word.is_empty())
    });
    named.map(String::from).collect()
}

/// The functions that the header declares, sorted.
pub fn functions() -> Vec<String> {
    let mut names = functions_of(&header());
    names.sort();
    names
}

#[test]
fn declarations_of_every_form() {
    let text = "#define M(a) f(a);\n\
                /* void not_one(int); */ enum e { A = 1 };\n\
                void one(int a); /* g(a); */ int two(void);\n\
                uint8_t *three\n(const char *a,\nint b);\n\
                extern struct s four (int a);\n";
    assert_eq!(functions_of(text), ["one", "two", "three", "four"]);
}

/// How the header writes a definition's name: `most_nodes` becomes TIMING_MOST_NODES.
fn in_c(name: &str) -> String {
    format!("TIMING_{}", name.to_ascii_uppercase())
}

/// Asserts that both have the same names with the same numbers, each once.
fn same(mut in_header: Vec<Named>, defined: Vec<Named>) {
    let mut defined: Vec<Named> = defined
        .into_iter()
        .map(|(name, number)| (in_c(&name), number))
        .collect();
    in_header.sort();
    defined.sort();
    assert_eq!(in_header, defined, "the header, then the definitions");
}

/// The refusals, without the answer of a finished call.
pub fn refusals_of_header() -> Vec<Named> {
    let mut numbers = enumerators("timing_number");
    assert_eq!(numbers.remove(0), ("TIMING_FINISHED".to_string(), 0));
    numbers
}

/// A number keeps its name when nothing gives it any more: of 9 there is no condition.
#[test]
fn refusals() {
    let mut in_header = refusals_of_header();
    let numbers: Vec<u32> = in_header.iter().map(|&(_, number)| number).collect();
    assert_eq!(numbers, Vec::from_iter(1..=26));
    assert_eq!(in_header.remove(8), ("TIMING_ALREADY_DRIVEN".into(), 9));
    same(in_header, definitions::refusals());
}

#[test]
fn values() {
    same(enumerators("timing_value"), definitions::values());
}

#[test]
fn limits() {
    let is_stack = |name: &str| name.ends_with("_STACK");
    let (stacks, mut limits): (Vec<_>, Vec<_>) =
        macros().into_iter().partition(|(name, _)| is_stack(name));
    assert_eq!(stacks.len(), 3);
    for (name, bound) in [
        ("TIMING_LONGEST_SHEET", longest_sheet(Edition::First)),
        ("TIMING_LONGEST_SHEET_2", longest_sheet(Edition::Second)),
        ("TIMING_LONGEST_SENTENCE", definitions::longest_sentence()),
    ] {
        let longest = (name.to_string(), bound);
        assert!(limits.contains(&longest), "no {longest:?}");
        limits.retain(|limit| *limit != longest);
    }
    same(limits, definitions::limits());
}

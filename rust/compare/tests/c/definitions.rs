//! Names and numbers of the definitions.

use std::fs;

use compare::repository;
use plain::Edition;

/// A name and its number.
pub type Named = (String, u32);

fn text(file: &str) -> String {
    let path = repository().join("crates").join(file);
    fs::read_to_string(path).unwrap_or_else(|error| panic!("{file}: {error}"))
}

/// The number that a text begins with.
pub fn leading_number(text: &str) -> Option<u32> {
    let digits = text.find(|c: char| !c.is_ascii_digit());
    text[..digits.unwrap_or(text.len())].parse().ok()
}

/// The name of a case: "  name : ..", two columns in or more.
fn case_name(line: &str) -> Option<&str> {
    let (name, _) = line.strip_prefix("  ")?.trim_start().split_once(" : ")?;
    let is_name = name.chars().all(|c| c.is_ascii_lowercase() || c == '_');
    is_name.then_some(name)
}

/// The cases of a file, each with the number that stands after `word` on its lines. A case without
/// a number stands for no refusal of its own.
fn cases(file: &str, word: &str) -> Vec<Named> {
    let mut found = Vec::new();
    let mut name = None;
    for line in text(file).lines() {
        name = case_name(line).map(String::from).or(name);
        let numbers = line.split(word).skip(1).filter_map(leading_number);
        found.extend(numbers.map(|number| {
            let name = name.clone();
            (name.expect("a number stands in a case"), number)
        }));
    }
    found
}

/// Every refusal's name and number: 2 to 18 but 9, then those of a run, that of a description, those of a
/// conversion, of which the last is that of any sheet to be written, those of a report of pulses and that
/// of a load.
pub fn refusals() -> Vec<Named> {
    let of_a_sheet = cases("format/specs/Condition.antt", "ConditionBy ");
    let of_a_run = cases("network/specs/RunConditions.antt", "(refused ");
    let of_a_text = constants("sentence/specs/Describing.antt");
    let of_a_conversion = constants("convert/specs/Conversion.antt");
    let of_an_output = constants("format/specs/Made.antt");
    let of_a_report = constants("pulses/specs/Reporting.antt");
    let of_a_load = constants("loaded/specs/Loading.antt");
    [
        of_a_sheet,
        of_a_run,
        of_a_text,
        of_a_conversion,
        of_an_output,
        of_a_report,
        of_a_load,
    ]
    .concat()
}

/// The numbers that a file names: "name = number".
fn constants(file: &str) -> Vec<Named> {
    let constant = |line: &str| {
        let (name, number) = line.split_once(" = ")?;
        Some((name.to_string(), number.parse().ok()?))
    };
    text(file).lines().filter_map(constant).collect()
}

/// Document 01's limits and the size of a record, the greatest width and the size of a pulse.
pub fn limits() -> Vec<Named> {
    let files = [
        "sheet/specs/Limits.antt",
        "network/specs/Buffer.antt",
        "pulses/specs/Report.antt",
    ];
    files.map(constants).concat()
}

/// The values of a cell.
pub fn values() -> Vec<Named> {
    constants("level/specs/Level.antt")
}

/// The bound in a theorem: "pub name : .. ≤ number".
fn bound(file: &str, name: &str) -> u32 {
    let text = text(file);
    let start = format!("pub {name} :");
    let statement = text.lines().find(|line| line.starts_with(&start));
    let bound = statement.and_then(|line| line.rsplit(" ≤ ").next());
    bound
        .and_then(leading_number)
        .expect("the theorem has a bound")
}

/// The bound in the theorem on an edition's longest sheet.
pub fn longest_sheet(edition: Edition) -> u32 {
    let theorem = match edition {
        Edition::First => "longest_sheet",
        Edition::Second => "longest_sheet_2",
    };
    bound("format/proofs/Theorems.antt", theorem)
}

/// The bound in the theorem on the longest sentence.
pub fn longest_sentence() -> u32 {
    bound("sentence/proofs/Longest.antt", "longest_sentence")
}

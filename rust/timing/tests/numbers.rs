//! The refusals' numbers are the header's, and their places are what the sentences say.

use std::fs;
use std::path::Path;

use timing::{number, sentence, Place};

fn text(file: &str) -> String {
    let path = Path::new(env!("CARGO_MANIFEST_DIR")).join(file);
    fs::read_to_string(&path).unwrap_or_else(|error| panic!("{file}: {error}"))
}

/// The names and numbers in lines of a form: what stands before the name, and between name and number.
fn named(text: &str, before: &str, between: &str) -> Vec<(String, u32)> {
    let line = |line: &str| {
        let (name, rest) = line.trim().strip_prefix(before)?.split_once(between)?;
        let digits: String = rest.chars().take_while(char::is_ascii_digit).collect();
        Some((name.to_string(), digits.parse().ok()?))
    };
    text.lines().filter_map(line).collect()
}

#[test]
fn as_in_the_header() {
    let header = text("../../include/timing.h");
    let (_, rest) = header
        .split_once("enum timing_number {")
        .expect("it has the numbers");
    let (body, _) = rest.split_once("};").expect("they end");
    let mut in_header = named(body, "TIMING_", " = ");
    assert_eq!(in_header.remove(0), ("FINISHED".to_string(), 0));
    assert_eq!(
        named(&text("src/number.rs"), "pub const ", ": u32 = "),
        in_header
    );
    assert_eq!(in_header.len(), 26);
}

/// The sizes of records are the header's, too.
#[test]
fn sizes_as_in_the_header() {
    let header = named(&text("../../include/timing.h"), "#define TIMING_", " ");
    for (name, size) in [
        ("RECORD_SIZE", timing::RECORD_BYTES),
        ("PULSE_SIZE", timing::PULSE_BYTES),
    ] {
        assert!(header.contains(&(name.to_string(), size as u32)), "{name}");
    }
}

#[test]
fn places_as_in_the_sentences() {
    for number in 1..=number::DRAWN_TOO_MANY {
        let said = match Place::of(number, 77) {
            Place::Byte(place) => format!(", at the sheet's byte {place};"),
            Place::Node(place) => format!(", at node {place};"),
            Place::Tick(place) => format!(", at tick {place};"),
            Place::Length(place) => format!(", length needed {place};"),
            Place::Pulses(place) => format!(", pulses to report {place};"),
            Place::Nowhere => ", place 77;".to_string(),
        };
        let sentence = sentence([number, 77, 0]);
        assert!(sentence.contains(&said), "{number}: {sentence}");
    }
}

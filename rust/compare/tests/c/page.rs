//! The README has the header's names and calls, the sentences' phrases, and document 01's input.

use std::fs;

use compare::{hex, repository};
use plain::worked_run;

use crate::definitions::{self, Named};
use crate::header::refusals_of_header;

fn text(file: &str) -> String {
    fs::read_to_string(repository().join(file)).unwrap_or_else(|error| panic!("{file}: {error}"))
}

fn page() -> String {
    text("README.md")
}

/// A row "| number | `NAME` | phrase | ..".
struct Row {
    named: Named,
    phrase: String,
}

fn rows() -> Vec<Row> {
    let row = |line: &str| {
        let mut columns = line.strip_prefix("| ")?.split(" | ");
        let number = columns.next()?.parse().ok()?;
        let name = columns.next()?.trim_matches('`');
        Some(Row {
            named: (name.to_string(), number),
            phrase: columns.next()?.to_string(),
        })
    };
    page().lines().filter_map(row).collect()
}

#[test]
fn the_table_of_refusals() {
    let named: Vec<Named> = rows().into_iter().map(|row| row.named).collect();
    assert_eq!(named, refusals_of_header());
}

#[test]
fn the_phrases() {
    for Row { named, phrase } in rows() {
        assert_eq!(plain::phrase(named.1), Some(phrase.as_str()), "{named:?}");
    }
}

/// What the README shows of an input that was cut short.
#[test]
fn the_refusal_shown() {
    let page = page();
    let (_, rest) = page
        .split_once("    $ head -c 30 input | target/bin/simulate\n    ")
        .expect("there is a line");
    let (shown, _) = rest.split_once('\n').expect("it ends");
    let printed = plain::program(&worked_run::INPUT[..30]);
    assert_eq!(format!("{shown}\n").as_bytes(), printed);
}

/// A number with a comma before its last three digits, and so on.
fn grouped(number: u32) -> String {
    match number {
        0..=999 => number.to_string(),
        _ => format!("{},{:03}", grouped(number / 1_000), number % 1_000),
    }
}

/// The limits that phrases name are the definitions'.
#[test]
fn the_limits_in_phrases() {
    let limits = definitions::limits();
    let named_in = [
        (1, &["greatest_horizon"][..]),
        (
            3,
            &[
                "least_nodes",
                "most_nodes",
                "most_modules",
                "most_events",
                "most_watched",
            ],
        ),
        (4, &["last_value", "input_byte"]),
        (8, &["longest_delay"]),
        (11, &["last_tick"]),
        (13, &["last_value"]),
        (20, &["pending_limit"]),
        (24, &["greatest_width"]),
        (26, &["most_events"]),
    ];
    for (number, names) in named_in {
        let phrase = plain::phrase(number).expect("it is listed");
        let words: Vec<&str> = phrase.split([' ', ':']).collect();
        for name in names {
            let limit = limits.iter().find(|(defined, _)| defined == name);
            let (_, limit) = limit.unwrap_or_else(|| panic!("no {name}"));
            let said = grouped(*limit);
            let says = |word: &&str| word.strip_suffix(',').unwrap_or(word) == said;
            assert!(words.iter().any(says), "{name} {said}: {phrase}");
        }
    }
}

#[test]
fn the_input_in_hexadecimal() {
    let page = page();
    let (_, rest) = page.split_once("    echo ").expect("there is a line");
    let (digits, _) = rest.split_once(" |").expect("it is piped");
    assert_eq!(digits.replace(' ', ""), hex(&worked_run::INPUT));
}

/// The calls that a text declares, each without its line breaks.
fn calls(text: &str) -> Vec<String> {
    let begun = text.split("void ").skip(1);
    let whole = begun.filter_map(|rest| rest.split_once(';'));
    let words = whole.map(|(call, _)| call.split_whitespace().collect::<Vec<_>>());
    words.map(|words| words.join(" ")).collect()
}

/// The README declares the first edition's calls, the conversions, whose names end in the edition that
/// they give, and the description, and names the second edition's calls, which take what the first's do.
#[test]
fn the_calls_in_the_readme() {
    let declared = calls(&text("include/timing.h"));
    let is_second = |call: &String| call.contains("_2(") && !call.contains("_to_2(");
    let (second, first): (Vec<_>, Vec<_>) = declared.into_iter().partition(is_second);
    assert_eq!([first.len(), second.len()], [8, 5]);
    let page = page();
    assert_eq!(calls(&page), first);
    let words: Vec<&str> = page.split([' ', ',', '\n']).collect();
    for call in second {
        assert!(first.contains(&call.replacen("_2(", "(", 1)), "{call}");
        let (name, _) = call.split_once('(').expect("it has parameters");
        assert!(words.contains(&name), "no {name} in the README");
    }
}

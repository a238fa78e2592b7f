//! A page with a wrong line is noticed: each line of a code block and each row of the table of refusals is
//! changed in turn.

use crate::commands::{folder, run_all, Runs};
use crate::faults;
use crate::page::{is_code, is_command, text, Page};

/// What a line is to the page.
#[derive(Clone, Copy, PartialEq, Eq)]
enum Sort {
    /// A line of a card or a table, or a command.
    Code,
    /// A line that a command prints.
    Printed,
    /// A row of the table of refusals.
    Row,
    Prose,
}

fn sorts(text: &str) -> Vec<Sort> {
    let mut after_command = false;
    let sort = |line: &str| {
        after_command = is_code(line) && (after_command || is_command(line));
        let is_row = line.starts_with("| ") && line[2..].starts_with(|c: char| c.is_ascii_digit());
        match is_code(line) {
            true if after_command && !is_command(line) => Sort::Printed,
            true => Sort::Code,
            false if is_row => Sort::Row,
            false => Sort::Prose,
        }
    };
    text.lines().map(sort).collect()
}

/// The line with another first character, and with another last one.
fn changed(line: &str) -> [String; 2] {
    let start = line.trim_start();
    let indent = &line[..line.len() - start.len()];
    let [first, last] = [&start[..1], &start[start.len() - 1..]];
    let other = |character: &str| if character == "0" { "1" } else { "0" };
    [
        format!("{indent}{}{}", other(first), &start[1..]),
        format!("{indent}{}{}", &start[..start.len() - 1], other(last)),
    ]
}

/// The row with another number, and with other words.
fn changed_row(line: &str) -> [String; 2] {
    [
        line.replacen("| ", "| 1", 1),
        line.replacen(" | ", " | not ", 1),
    ]
}

/// Asserts that a page with other lines in place of one is noticed.
fn is_noticed(text: &str, runs: &Runs, place: usize, lines: &[&str]) {
    let mut page: Vec<&str> = text.lines().collect();
    page.splice(place..=place, lines.iter().copied());
    let page = page.join("\n") + "\n";
    let faults = faults(&page, runs);
    assert!(!faults.is_empty(), "line {}: {lines:?}", place + 1);
}

#[test]
fn a_wrong_line_is_noticed() {
    let text = text();
    let runs = run_all(&Page::of(&text).commands, &folder("changed"));
    assert_eq!(faults(&text, &runs), [""; 0]);
    let sorts = sorts(&text);
    for (place, (line, &sort)) in text.lines().zip(&sorts).enumerate() {
        let others = match sort {
            Sort::Prose => continue,
            Sort::Row => changed_row(line),
            Sort::Code | Sort::Printed => changed(line),
        };
        for other in &others {
            is_noticed(&text, &runs, place, &[other]);
        }
        is_noticed(&text, &runs, place, &[line, line]);
        // A part of a card may be shorter.
        if sort != Sort::Code {
            is_noticed(&text, &runs, place, &[]);
        }
    }
    let count = |sort: Sort| sorts.iter().filter(|&&other| other == sort).count();
    let counts = [Sort::Code, Sort::Printed, Sort::Row].map(count);
    let [code, printed, rows] = counts;
    assert!(code >= 39 && printed >= 32 && rows == 26, "{counts:?}");
}

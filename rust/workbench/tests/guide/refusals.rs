//! The table of refusals: each once, in the words of its sentence.

use crate::page::{text, Page, Row};

/// The greatest number of a refusal.
pub const LAST: u32 = 26;

/// What stands for the rest of a sentence.
const CUT: &str = " ..";

/// The rows that are missing, in the wrong place, or in other words.
pub fn faults(rows: &[Row]) -> Vec<String> {
    let mut faults = Vec::new();
    if !rows.iter().map(|row| row.number).eq(1..=LAST) {
        faults.push(format!("the rows are not 1 to {LAST}"));
    }
    for row in rows {
        let phrase = plain::phrase(row.number).unwrap_or_default();
        let is_right = match row.wrong.strip_suffix(CUT) {
            Some(start) => {
                !start.is_empty() && start.len() < phrase.len() && phrase.starts_with(start)
            }
            None => row.wrong == phrase,
        };
        if !is_right {
            faults.push(format!("{}: {}, but {phrase}", row.number, row.wrong));
        }
        if row.advice.is_empty() {
            faults.push(format!("{}: nothing to do", row.number));
        }
    }
    faults
}

/// The number of the refusal that an answer tells, if it is one.
pub fn number(printed: &str) -> Option<u32> {
    let told = printed.strip_prefix("refused: ")?;
    let number = (1..=LAST).find(|&number| {
        let phrase = plain::phrase(number).expect("it is listed");
        told.strip_prefix(phrase)
            .is_some_and(|rest| rest.starts_with(", "))
    });
    assert!(number.is_some(), "{printed}");
    number
}

#[test]
fn every_refusal_has_a_row() {
    assert_eq!(plain::phrase(LAST + 1), None);
    let text = text();
    let rows = Page::of(&text).rows;
    assert_eq!(rows.len(), 26);
    assert_eq!(faults(&rows), [""; 0]);
}

/// A cut phrase is told apart from all others.
#[test]
fn cut_words_are_of_one_refusal() {
    let text = text();
    let rows = Page::of(&text).rows;
    let cut: Vec<&str> = rows
        .iter()
        .filter_map(|row| row.wrong.strip_suffix(CUT))
        .collect();
    assert!(!cut.is_empty());
    for start in cut {
        let phrases = (1..=LAST).filter_map(plain::phrase);
        let alike = phrases.filter(|phrase| phrase.starts_with(start));
        assert_eq!(alike.count(), 1, "{start}");
    }
}

/// What the request names.
#[test]
fn what_19_and_20_ask_for() {
    let text = text();
    let rows = Page::of(&text).rows;
    let advice = |number: u32| rows.iter().find(|row| row.number == number).unwrap().advice;
    assert!(advice(19).starts_with("A larger buffer or an earlier horizon."));
    assert!(advice(20).starts_with("Fewer changes in flight"));
}

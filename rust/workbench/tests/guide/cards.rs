//! The cards that the page shows are the examples' lines.

use std::fs;

use crate::page::{repository, text, Page, Shown};

/// The cards that are no whole lines of their files.
pub fn faults(cards: &[Shown]) -> Vec<String> {
    let is_wrong = |card: &&Shown| match fs::read_to_string(repository().join(card.file)) {
        Ok(file) => !format!("\n{file}").contains(&format!("\n{}", card.lines)),
        Err(_) => true,
    };
    let told = |card: &Shown| format!("{} has no lines\n{}", card.file, card.lines);
    cards.iter().filter(is_wrong).map(told).collect()
}

#[test]
fn the_cards_are_the_examples() {
    let text = text();
    let cards = Page::of(&text).cards;
    assert!(cards.len() >= 4, "{} cards are shown", cards.len());
    assert_eq!(faults(&cards), [""; 0]);
}

/// The first card is shown whole.
#[test]
fn the_worked_run_is_shown_whole() {
    let text = text();
    let cards = Page::of(&text).cards;
    let file = fs::read_to_string(repository().join("examples/worked.net")).unwrap();
    assert_eq!(
        (cards[0].file, &cards[0].lines),
        ("examples/worked.net", &file)
    );
}

#[test]
fn parts_of_lines_are_no_lines() {
    let wrong = |lines: &str| {
        let lines = lines.to_string();
        let file = "examples/worked.net";
        faults(&[Shown { file, lines }]).len()
    };
    assert_eq!(wrong("watch section\nwatch scoop\n"), 0);
    assert_eq!(wrong("section\nwatch scoop\n"), 1);
    assert_eq!(wrong("watch section\nwatch sc\n"), 1);
    assert_eq!(wrong("watch scoop\nwatch section\n"), 1);
    let missing = Shown {
        file: "examples/missing.net",
        lines: "watch scoop\n".to_string(),
    };
    assert_eq!(faults(&[missing]).len(), 1);
}

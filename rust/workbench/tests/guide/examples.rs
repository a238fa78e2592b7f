//! The examples: those that the page names are there, and each is checked as the page says.

use std::collections::HashMap;
use std::fs;

use crate::commands::{folder, timing};
use crate::page::{cards_named, repository, text, Page};
use crate::refusals::number;

/// The cards among the examples, by their names.
pub fn cards() -> Vec<String> {
    let entries = fs::read_dir(repository().join("examples")).expect("there are examples");
    let names = entries.map(|entry| entry.unwrap().file_name().into_string().unwrap());
    let mut cards: Vec<String> = names
        .filter(|name| name.ends_with(".net"))
        .map(|name| format!("examples/{name}"))
        .collect();
    cards.sort();
    cards
}

#[test]
fn the_named_cards_are_there() {
    let text = text();
    let named = cards_named(&text);
    let there = cards();
    for card in &named {
        assert!(there.iter().any(|name| name == card), "no {card}");
    }
    let is_named = |card: &&String| named.contains(&card.as_str());
    assert!(there.iter().filter(is_named).count() >= 8, "{named:?}");
}

/// Each card is accepted, but for those that the page shows refused, with that refusal.
#[test]
fn the_cards_are_checked_as_the_page_says() {
    let text = text();
    let mut refused = HashMap::new();
    for command in Page::of(&text).commands {
        if let Some(card) = command.words.strip_prefix("timing check ") {
            refused.extend(number(&command.printed).map(|number| (card.to_string(), number)));
        }
    }
    assert!(refused.len() >= 2, "{refused:?}");
    let folder = folder("examples");
    for card in cards() {
        let ran = timing(&folder, &["check", &card]);
        assert_eq!(number(&ran.printed), refused.get(&card).copied(), "{card}");
        let status = i32::from(refused.contains_key(&card));
        assert_eq!(ran.status, Some(status), "{card}: {}", ran.printed);
    }
}

/// The refusal that a card's comment says it meets.
fn said(source: &str) -> Option<u32> {
    let (_, rest) = source.split_once("efused (")?;
    let (number, _) = rest.split_once(')')?;
    number.parse().ok()
}

/// The cards that say so are refused by a run, and no others.
#[test]
fn the_cards_say_what_they_meet() {
    let folder = folder("said");
    let mut refused = 0;
    for card in cards() {
        let source = fs::read_to_string(repository().join(&card)).unwrap();
        let ran = timing(&folder, &["run", &card, "--horizon", "20000"]);
        assert_eq!(number(&ran.printed), said(&source), "{card}");
        refused += ran.status.expect("it ends");
    }
    assert!(refused >= 3, "{refused} are refused");
}

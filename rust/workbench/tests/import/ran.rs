//! Texts run by the library.

use timing::{Level, Record};
use workbench::card::Card;
use workbench::text;

/// The card of a text.
pub fn card(text: &str) -> Card {
    text::assemble(text.as_bytes()).unwrap_or_else(|mistake| panic!("{mistake}\n{text}"))
}

/// The listing of a card.
pub fn listing(card: &Card, horizon: u32) -> Vec<Record> {
    let listing = card.sheet().run_whole(horizon);
    let listing = listing.unwrap_or_else(|failure| panic!("{failure}"));
    listing.iter().collect()
}

/// The cells of a watched node below the horizon.
pub fn cells(text: &str, name: &str, horizon: u32) -> Vec<Level> {
    let card = card(text);
    let node = card.names.iter().position(|known| known == name);
    let records = listing(&card, horizon);
    let own = records
        .into_iter()
        .filter(|record| Some(usize::from(record.node)) == node);
    own.flat_map(|record| (record.tick..record.end).map(move |_| record.value))
        .collect()
}

/// A drive line that gives an input these values, one a tick.
pub fn drive(name: &str, values: &[Level]) -> String {
    let mut before = None;
    let mut events = Vec::new();
    for (tick, &value) in values.iter().enumerate() {
        if before.replace(value) != Some(value) {
            events.push(format!("{value} at {tick}"));
        }
    }
    format!("drive {name}: {}\n", events.join(", "))
}

/// The values that letters stand for, one a tick.
pub fn levels(letters: &str) -> Vec<Level> {
    let level = |letter| {
        Level::ALL
            .into_iter()
            .find(|level| level.letter() == letter)
    };
    let level = |letter| level(letter).unwrap_or_else(|| panic!("{letter} is no value"));
    letters.chars().map(level).collect()
}

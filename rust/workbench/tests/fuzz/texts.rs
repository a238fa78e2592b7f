//! Mutated texts of cards.

use generate::{Generator, Random};
use timing::Edition;
use workbench::card::Card;
use workbench::text;

use crate::mutated::mutated;
use crate::{bounded, is_within};

/// How many mutated texts are read, and how many of them must still be texts, and must not.
const TEXTS: usize = 50_000;
const OF_EACH: usize = 2_000;

const WORDS: [&str; 42] = [
    "timing-1",
    "timing-2",
    "input",
    "node",
    "drive",
    "watch",
    "raw",
    "module",
    "event",
    "bytes",
    "from",
    "kind",
    "parameter",
    "output",
    "inputs",
    "tick",
    "value",
    "byte",
    "constant",
    "buffer",
    "nand",
    "and",
    "memory",
    "multiplexer",
    "set",
    "delay",
    "initial",
    "at",
    "{",
    "}",
    "(",
    ")",
    "=",
    ":",
    "@",
    "#",
    "X",
    "Z",
    "0",
    "65536",
    "4294967296",
    "é",
];

/// Texts of generated sheets, accepted or not.
fn good(edition: plain::Edition, seed: u64) -> Vec<Vec<u8>> {
    let of = match edition {
        plain::Edition::First => Edition::First,
        plain::Edition::Second => Edition::Second,
    };
    let mut generator = Generator::of(edition, seed);
    let sheets = (0..500).map(|_| generator.any());
    let texts = sheets.map(|sheet| text::write(&Card::of_sheet(of, sheet, &[])));
    let short = texts.filter(|text| text.len() < 4_000);
    short.map(String::into_bytes).collect()
}

#[test]
fn mutated_texts() {
    let mut random = Random::new(5);
    let good: Vec<Vec<u8>> = plain::Edition::ALL
        .into_iter()
        .flat_map(|edition| good(edition, 5))
        .collect();
    let mut texts = 0;
    for _ in 0..TEXTS {
        let from = random.place(good.len());
        let file = mutated(&mut random, &good[from], &WORDS);
        match bounded(&file, text::assemble) {
            Err(mistake) => is_within(&file, &mistake),
            Ok(card) => {
                texts += 1;
                let shown = text::write(&card);
                let back = text::assemble(shown.as_bytes());
                assert_eq!(back.expect("it was shown").sheet, card.sheet, "{shown}");
            }
        }
    }
    assert!(
        (OF_EACH..TEXTS - OF_EACH).contains(&texts),
        "{texts} of {TEXTS}"
    );
}

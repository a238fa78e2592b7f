//! Mutated netlists.

use generate::Random;
use workbench::{bench, text};

use crate::mutated::mutated;
use crate::{bounded, is_within};

/// How many mutated netlists are read, and how many of them must still be netlists, and must not.
const NETLISTS: usize = 50_000;
const OF_EACH: usize = 2_000;

const WORDS: [&str; 22] = [
    "INPUT(", "OUTPUT(", "(", ")", ",", "=", "#", "G10", "22", "clock", "AND", "OR", "NAND", "NOR",
    "XOR", "XNOR", "NOT", "BUFF", "DFF", "é", "G5.held", "\r\n",
];

const GOOD: [&str; 3] = [
    include_str!("../../../../examples/c17.bench"),
    include_str!("../../../../examples/s27.bench"),
    "INPUT(clock)\nINPUT(a)\nb = XNOR(a, b, c, a)\nc = BUFF(d)\nd = NAND(a, b, c)\nOUTPUT(d)\nOUTPUT(e)\n\
     e = DFF(d)\nf = XOR(a, b, c, d, e)\ng = NOR(f)\n",
];

#[test]
fn mutated_netlists() {
    let mut random = Random::new(6);
    let mut netlists = 0;
    for _ in 0..NETLISTS {
        let good = random.pick(&GOOD);
        let file = mutated(&mut random, good.as_bytes(), &WORDS);
        let delay = u16::try_from(random.between(1, 10_000)).expect("it is at most 10,000");
        match bounded(&file, |file| bench::import(file, delay)) {
            Err(mistake) => is_within(&file, &mistake),
            Ok(shown) => {
                netlists += 1;
                let card = bounded(shown.as_bytes(), text::assemble);
                let card = card.unwrap_or_else(|mistake| panic!("{mistake}\n{shown}"));
                assert_eq!(card.sheet().check(), Ok(()), "{shown}");
            }
        }
    }
    assert!(
        (OF_EACH..NETLISTS - OF_EACH).contains(&netlists),
        "{netlists} of {NETLISTS}"
    );
}

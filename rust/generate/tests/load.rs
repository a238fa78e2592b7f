//! Loads by the plain simulator, which draws one number after the other: they are what the draws give when
//! each is worked out by its number alone, and the mixture meets every refusal.

use std::collections::BTreeSet;

use generate::draws_by_hand::FIRST_DRAWS;
use generate::loads::{draw, loaded, state, LoadsMet};
use generate::{assert_met, loads_by_hand, Generator, LoadInput};
use plain::{check, read, Answer, Edition};

/// Enough for every sheet in either edition.
const AMPLE: usize = 10_000;

#[test]
fn draws_by_their_numbers() {
    for (seed, draws) in FIRST_DRAWS {
        for (number, (after, drawn)) in (1..).zip(draws) {
            assert_eq!(state(seed, number), u64::from(after), "{seed}, {number}");
            assert_eq!(draw(seed, number), usize::from(drawn), "{seed}, {number}");
        }
    }
}

/// What the plain simulator writes, or its refusal.
fn load(edition: Edition, input: &LoadInput) -> Result<Vec<u8>, Answer> {
    let mut output = vec![0; AMPLE];
    match plain::load(edition, &input.sheet, input.seed, input.n, &mut output) {
        Answer::Ran { count } => {
            output.truncate(count as usize);
            Ok(output)
        }
        refusal => Err(refusal),
    }
}

/// The same from the bytes: the refusal of a check, or what the draws give, or 26.
fn from_bytes(edition: Edition, input: &LoadInput) -> Result<Vec<u8>, Answer> {
    let checked = check(edition, &input.sheet);
    if checked != (Answer::Ran { count: 0 }) {
        return Err(checked);
    }
    let loaded = loaded(edition, &input.sheet, input.seed, input.n);
    loaded.ok_or(Answer::Refused {
        number: 26,
        place: 0,
        count: 0,
    })
}

/// Into an output that takes every sheet, so that 23 is not met.
fn mixture(edition: Edition) {
    let mut generator = Generator::of(edition, 64);
    let mut met = [0; 27];
    let mut loads_met = LoadsMet::default();
    for place in 0..30_000 {
        let input = generator.load_input();
        let expected = from_bytes(edition, &input);
        assert_eq!(load(edition, &input), expected, "{edition:?}, load {place}");
        let number = expected.map_or_else(|refusal| refusal.triple()[0], |_| 0);
        met[number as usize] += 1;
        if let Ok(sheet) = read(edition, &input.sheet) {
            loads_met.add(&sheet, input.seed, input.n);
        }
    }
    println!("{edition:?}: answers by number, 0 for loaded: {met:?}; {loads_met:?}");
    assert!(met[0] >= 10_000, "{edition:?}: {met:?}");
    let never = [1, 9, 15, 19, 20, 21, 22, 23, 24, 25];
    assert_met(&met, 50, &never, &format!("{edition:?}"));
    loads_met.assert_often(100, &format!("{edition:?}"));
}

#[test]
fn what_the_mixture_meets() {
    Edition::ALL.into_iter().for_each(mixture);
}

#[test]
fn every_refusal_has_a_case() {
    for edition in Edition::ALL {
        let mut cases = loads_by_hand::cases();
        cases.retain(|case| case.edition == edition);
        let numbers: BTreeSet<u32> = cases.iter().map(|case| case.answer[0]).collect();
        let of_a_check = (2..=18).filter(|number| ![9, 15].contains(number));
        let expected = of_a_check.chain([0, 23, 26]).collect();
        assert_eq!(numbers, expected, "{edition:?}");
    }
}

/// Another sheet with the same inputs has these and no others, and is accepted.
#[test]
fn the_same_inputs() {
    for edition in Edition::ALL {
        let mut generator = Generator::of(edition, 65);
        let [mut accepted, mut more, mut fewer] = [0; 3];
        while accepted < 5_000 {
            let Ok(sheet) = read(edition, &generator.load_input().sheet) else {
                continue;
            };
            accepted += 1;
            let other = generator.with_same_inputs(&sheet);
            let answer = check(edition, &other.encode(edition));
            assert_eq!(answer, Answer::Ran { count: 0 }, "{other:?}");
            assert!(other.inputs().eq(sheet.inputs()), "{sheet:?} {other:?}");
            more += u64::from(other.nodes.len() > sheet.nodes.len());
            fewer += u64::from(other.nodes.len() < sheet.nodes.len());
        }
        println!("{edition:?}: {more} have more nodes, {fewer} fewer");
        assert!(
            more >= 1_000 && fewer >= 300,
            "{edition:?}: {more}, {fewer}"
        );
    }
}

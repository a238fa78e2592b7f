//! The mixture meets every refusal of reading, and a seed gives one stream.

use generate::{assert_met, Generator};
use plain::{check, check_strict, Edition};

fn every_refusal(edition: Edition) {
    let mut generator = Generator::of(edition, 7);
    let mut met = [[0; 19]; 2];
    for _ in 0..100_000 {
        let sheet = generator.any();
        let answers = [check(edition, &sheet), check_strict(edition, &sheet)];
        for (met, answer) in met.iter_mut().zip(answers) {
            let [number, ..] = answer.triple();
            met[number as usize] += 1;
        }
    }
    println!("{edition:?}: answers by number, 0 for accepted, plainly and strictly: {met:?}");
    assert_met(&met[0], 100, &[1, 9, 15], "plainly");
    assert_met(&met[1], 100, &[1, 9], "strictly");
    assert!(met.iter().all(|met| met[0] >= 10_000));
}

#[test]
fn every_refusal_is_met_often() {
    Edition::ALL.into_iter().for_each(every_refusal);
}

#[test]
fn a_seed_gives_one_stream() {
    for edition in Edition::ALL {
        let stream = |seed| {
            let mut generator = Generator::of(edition, seed);
            let sheets: Vec<Vec<u8>> = (0..1_000).map(|_| generator.any()).collect();
            sheets
        };
        assert_eq!(stream(8), stream(8));
        assert_ne!(stream(8), stream(9));
    }
}

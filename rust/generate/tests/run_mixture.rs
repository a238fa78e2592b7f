//! The mixture of runs meets every refusal, and a seed gives one stream.

use generate::{assert_met, room_for_all, Generator, RunInput};
use plain::Edition;

fn every_refusal(edition: Edition) {
    let mut generator = Generator::of(edition, 31);
    let mut met = [0; 21];
    for _ in 0..20_000 {
        let RunInput { sheet, horizon } = generator.run_input();
        let mut ample = vec![0; room_for_all(edition, &sheet, horizon)];
        let [number, ..] = plain::run(edition, &sheet, horizon, &mut ample).triple();
        met[number as usize] += 1;
    }
    println!("{edition:?}: answers by number, 0 for finished: {met:?}");
    assert!(met[0] >= 10_000, "{met:?}");
    // 19 asks for a short buffer, 15 for a strict check, and 9 is not given any more.
    assert_met(&met, 15, &[9, 15, 19], "runs");
}

#[test]
fn every_refusal_that_a_sheet_can_meet_is_met() {
    Edition::ALL.into_iter().for_each(every_refusal);
}

#[test]
fn a_seed_gives_one_stream() {
    for edition in Edition::ALL {
        let stream = |seed| {
            let mut generator = Generator::of(edition, seed);
            let inputs: Vec<RunInput> = (0..1_000).map(|_| generator.run_input()).collect();
            inputs
        };
        assert_eq!(stream(8), stream(8));
        assert_ne!(stream(8), stream(9));
    }
}

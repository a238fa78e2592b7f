//! Reports of pulses by the plain simulator, which looks at cells: they are what its listing's records say,
//! and the mixture meets every refusal and every way to be wrong by one.

use std::collections::BTreeSet;

use generate::limits::{PULSE_BYTES, RECORD_BYTES};
use generate::pulses::{shorter, PulsesMet};
use generate::sheets::{pulses, records};
use generate::{assert_met, pulses_by_hand, room_for_all, Generator, PulsesInput};
use plain::{Answer, Edition};

/// In buffers with room for all, so that neither 19 nor 25 is met: the answer's number is counted, and a
/// finished report is compared.
fn mixture(edition: Edition) {
    let mut generator = Generator::of(edition, 62);
    let mut met = [0; 26];
    let mut pulses_met = PulsesMet::default();
    for place in 0..20_000 {
        let PulsesInput { run, width } = generator.pulses_input();
        let room = room_for_all(edition, &run.sheet, run.horizon);
        let [mut listing, mut report] = [(); 2].map(|()| vec![0; room]);
        let answer = plain::pulses(
            edition,
            &run.sheet,
            run.horizon,
            width,
            &mut listing,
            &mut report,
        );
        met[answer.triple()[0] as usize] += 1;
        let Answer::Ran { count } = answer else {
            continue;
        };
        let mut again = vec![0; room];
        let ran = plain::run(edition, &run.sheet, run.horizon, &mut again);
        assert!(again == listing, "{edition:?}, run {place}");
        let Answer::Ran { count: listed } = ran else {
            panic!("{edition:?}, run {place}: {ran:?}");
        };
        let records = records(&listing[..RECORD_BYTES * listed as usize]);
        let reported = pulses(&report[..PULSE_BYTES * count as usize]);
        let expected = shorter(width, &records, run.horizon);
        assert_eq!(
            reported, expected,
            "{edition:?}, run {place}, width {width}"
        );
        pulses_met.add(width, &records, run.horizon);
    }
    println!("{edition:?}: answers by number, 0 for finished: {met:?}; {pulses_met:?}");
    assert!(met[0] >= 10_000, "{edition:?}: {met:?}");
    assert_met(
        &met,
        10,
        &[9, 15, 19, 21, 22, 23, 25],
        &format!("{edition:?}"),
    );
    pulses_met.assert_often(500, &format!("{edition:?}"));
}

#[test]
fn what_the_mixture_meets() {
    Edition::ALL.into_iter().for_each(mixture);
}

#[test]
fn every_refusal_has_a_case() {
    for edition in Edition::ALL {
        let mut cases = pulses_by_hand::cases();
        cases.retain(|case| case.edition == edition);
        let numbers: BTreeSet<u32> = cases.iter().map(|case| case.answer[0]).collect();
        let of_a_run = (0..=20).filter(|number| ![9, 15].contains(number));
        assert_eq!(numbers, of_a_run.chain([24, 25]).collect(), "{edition:?}");
    }
}

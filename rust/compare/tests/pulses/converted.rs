//! A sheet and its conversion have the same answer, listing and report.

use compare::{converted, count, hex, seed};
use generate::{assert_met, Generator, PulsesInput, RunInput};
use plain::{read, Edition};

use crate::agreed::{proved, Given};
use crate::rooms::rooms;

/// What is asked of a sheet that both editions accept. It is encoded in one of them.
fn accepted(edition: Edition, generator: &mut Generator) -> PulsesInput {
    loop {
        let mut input = generator.pulses_input();
        if let Ok(sheet) = read(Edition::First, &input.run.sheet) {
            input.run.sheet = sheet.encode(edition);
            return input;
        }
    }
}

fn reported_alike(from: Edition, seed: u64) {
    let mut generator = Generator::new(seed);
    let mut met = [0u64; 26];
    for place in 0..count(20_000) {
        let input = accepted(from, &mut generator);
        let sheet = &input.run.sheet;
        let whence = format!("{from:?}, seed {seed}, report {place}");
        let other = PulsesInput {
            run: RunInput {
                sheet: converted(from, sheet).expect(&whence),
                ..input.run
            },
            ..input
        };
        let bytes = rooms(&mut generator, from, &input).bytes;
        let [given, converted] = [(from, &input), (from.other(), &other)]
            .map(|(edition, input)| proved(&Given::new(edition, input, bytes), &whence));
        assert!(given == converted, "{whence}, {bytes:?}: {}", hex(sheet));
        met[given.answer[0] as usize] += 1;
    }
    println!("{from:?}: answers by number, 0 for finished: {met:?}");
    let of_a_sheet_or_other_calls: Vec<usize> = (2..=18).chain(21..=23).collect();
    assert_met(
        &met,
        20,
        &of_a_sheet_or_other_calls,
        &format!("{from:?}, seed {seed}"),
    );
}

#[test]
fn from_the_first_edition() {
    reported_alike(Edition::First, seed());
}

/// Over other sheets.
#[test]
fn from_the_second_edition() {
    reported_alike(Edition::Second, !seed());
}

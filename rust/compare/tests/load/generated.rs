//! Generated sheets, good and bad, with seeds and counts of every sort, into outputs of every sort.

use compare::{count, seed};
use generate::loads::{self, LoadsMet};
use generate::{assert_met, Generator, LoadInput, Output};
use plain::Edition;

use crate::agreed::agreed;

/// The bytes that the loaded sheet needs, or the sheet's own where it is refused.
fn needed(edition: Edition, input: &LoadInput) -> usize {
    let &LoadInput { ref sheet, seed, n } = input;
    match plain::load(edition, sheet, seed, n, &mut []).triple() {
        [23, needed, _] => needed as usize,
        _ => sheet.len(),
    }
}

/// What is never answered: by a load, for such an output.
fn never(output: Output) -> Vec<usize> {
    let mut never = vec![1, 9, 15, 19, 20, 21, 22, 24, 25];
    never.extend(match output {
        Output::Empty | Output::ByteShort => Some(0),
        Output::Exact | Output::ByteLong => Some(23),
        Output::Any => None,
    });
    never
}

fn generated(edition: Edition) {
    let seed = seed();
    let mut inputs = Generator::of(edition, seed);
    // The outputs have a stream of their own.
    let mut outputs = Generator::new(!seed);
    let mut met = Output::ALL.map(|output| (output, [0u64; 27]));
    let mut loads_met = LoadsMet::default();
    for place in 0..count(60_000) {
        let input = inputs.load_input();
        let needed = needed(edition, &input);
        if let Ok(sheet) = plain::read(edition, &input.sheet) {
            loads_met.add(&sheet, input.seed, input.n);
        }
        for (output, met) in &mut met {
            let length = outputs.output_bytes(*output, needed);
            let whence = format!("seed {seed}, load {place}, {output:?}");
            let outcome = agreed(edition, &input, length, &whence);
            if outcome.answer[0] == 0 {
                let by_number = loads::loaded(edition, &input.sheet, input.seed, input.n);
                assert_eq!(Some(outcome.written), by_number, "{whence}");
            }
            met[outcome.answer[0] as usize] += 1;
        }
    }
    let whence = format!("{edition:?}, seed {seed}");
    println!("{whence}: {loads_met:?}");
    loads_met.assert_often(200, &whence);
    for (output, met) in met {
        let whence = format!("{whence}, {output:?}");
        println!("{whence}: answers by number, 0 for loaded: {met:?}");
        assert_met(&met, 100, &never(output), &whence);
        assert!(met[0] + met[23] >= 20_000, "{whence}: {met:?}");
        assert!(met[26] >= 5_000, "{whence}: {met:?}");
    }
}

#[test]
fn generated_loads() {
    generated(Edition::First);
}

#[test]
fn generated_loads_of_the_second_edition() {
    generated(Edition::Second);
}

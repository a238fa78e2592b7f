//! Generated sheets, good and bad, into outputs of every sort.

use compare::{count, seed};
use generate::{assert_met, Generator, Output};
use plain::Edition;

use crate::agreed::agreed;

/// The bytes that the sheet needs in the other edition, or its own where it is not converted.
fn needed(from: Edition, sheet: &[u8]) -> usize {
    match plain::convert(from, sheet, &mut []).triple() {
        [23, needed, _] => needed as usize,
        _ => sheet.len(),
    }
}

/// What is never answered: by a conversion, by one to the second edition, for such an output.
fn never(from: Edition, output: Output) -> Vec<usize> {
    let mut never = vec![1, 9, 15, 19, 20, 21];
    never.extend((from == Edition::First).then_some(22));
    never.extend(match output {
        Output::Empty | Output::ByteShort => Some(0),
        Output::Exact | Output::ByteLong => Some(23),
        Output::Any => None,
    });
    never
}

fn generated(from: Edition) {
    let seed = seed();
    let mut sheets = Generator::of(from, seed);
    // The outputs have a stream of their own.
    let mut outputs = Generator::new(!seed);
    let mut met = Output::ALL.map(|output| (output, [0u64; 24]));
    for place in 0..count(200_000) {
        let sheet = sheets.to_convert();
        let needed = needed(from, &sheet);
        for (output, met) in &mut met {
            let length = outputs.output_bytes(*output, needed);
            let whence = format!("seed {seed}, sheet {place}, {output:?}");
            let [number, ..] = agreed(from, &sheet, length, &whence).answer;
            met[number as usize] += 1;
        }
    }
    for (output, met) in met {
        let whence = format!("{from:?}, seed {seed}, {output:?}");
        println!("{whence}: answers by number, 0 for converted: {met:?}");
        assert_met(&met, 100, &never(from, output), &whence);
        assert!(met[0] + met[23] >= 10_000, "{whence}: {met:?}");
    }
}

#[test]
fn generated_sheets() {
    generated(Edition::First);
}

#[test]
fn generated_sheets_of_the_second_edition() {
    generated(Edition::Second);
}

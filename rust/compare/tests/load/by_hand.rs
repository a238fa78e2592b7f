//! The first draws of three seeds, drives that they give, and what a load refuses, worked out by hand.

use compare::{loaded, Outcome};
use generate::draws_by_hand::FIRST_DRAWS;
use generate::loads::parts;
use generate::sheets::sheet;
use generate::{loads_by_hand, LoadInput};
use plain::{Edition, INPUT};

use crate::agreed::agreed;

#[test]
fn worked_out_by_hand() {
    let cases = loads_by_hand::cases();
    for case in &cases {
        let whence = case.whence();
        let input = LoadInput {
            sheet: case.sheet.clone(),
            seed: case.seed,
            n: case.n,
        };
        let Outcome { answer, written } = agreed(case.edition, &input, case.bytes, &whence);
        assert_eq!(answer, case.answer, "{whence}");
        assert_eq!(written, case.written, "{whence}");
    }
    assert!(cases.len() >= 1_000, "{} cases", cases.len());
}

/// One event after the inputs' own shows what became of the first draws: with one input the first four, and
/// with nine all twelve.
#[test]
fn first_draws() {
    for (seed, draws) in FIRST_DRAWS {
        let draw = |number: usize| draws[number - 1].1;
        for inputs in 1..=9 {
            let nodes = vec![INPUT; inputs.into()];
            let sheet = sheet(&nodes, &[], &[], &[]);
            let count = usize::from(inputs);
            let mut drive = vec![inputs + 1, 0];
            for node in 0..inputs {
                let value = (draw(1 + usize::from(node)) % 2) as u8;
                drive.extend([0, 0, 0, 0, node, value]);
            }
            let tick = 1 + draw(count + 1) % 64;
            let node = draw(count + 2) % u16::from(inputs);
            let value = draw(count + 3) % 2;
            drive.extend([tick as u8, 0, 0, 0, node as u8, value as u8]);
            for edition in Edition::ALL {
                let loaded = loaded(edition, &sheet.encode(edition), seed, 1);
                let loaded = loaded.expect("there are few inputs");
                let whence = format!("{edition:?}, seed {seed}, {inputs} inputs");
                assert_eq!(parts(edition, &loaded).drive, drive, "{whence}");
            }
        }
    }
}

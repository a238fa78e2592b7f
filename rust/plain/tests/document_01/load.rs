//! Document 02, W-210: a load to compare cards.

use crate::support::*;
use generate::draws_by_hand::FIRST_DRAWS;
use generate::loads_by_hand;
use plain::Draws;

#[test]
fn first_draws() {
    for (seed, draws) in FIRST_DRAWS {
        let mut drawing = Draws::new(seed);
        for (_, expected) in draws {
            assert_eq!(drawing.draw(), expected, "seed {seed}");
        }
    }
}

#[test]
fn worked_out_by_hand() {
    for case in loads_by_hand::cases() {
        let mut output = vec![UNTOUCHED; case.bytes];
        let answer = plain::load(case.edition, &case.sheet, case.seed, case.n, &mut output);
        let mut expected = case.written.clone();
        expected.resize(case.bytes, UNTOUCHED);
        assert_eq!(answer.triple(), case.answer, "{}", case.whence());
        assert_eq!(output, expected, "{}", case.whence());
    }
}

//! A load by the proved library and one by the plain simulator, into outputs that are alike.

use std::hint::black_box;

use compare::{hex, Outcome};
use generate::LoadInput;
use plain::Edition;

/// The load by the proved library, which must leave the sheet as it was.
fn proved(edition: Edition, input: &LoadInput, length: usize, whence: &str) -> Outcome {
    let &LoadInput { ref sheet, seed, n } = input;
    let lent = sheet.clone();
    let outcome = Outcome::of(length, whence, |output| {
        compare::load(edition, black_box(&lent), seed, n, output)
    });
    assert!(*black_box(&lent) == *sheet, "{whence}: the sheet itself");
    outcome
}

/// Asserts that both give the same answer and leave the same bytes, and gives them.
pub fn agreed(edition: Edition, input: &LoadInput, length: usize, whence: &str) -> Outcome {
    let &LoadInput { ref sheet, seed, n } = input;
    let proved = proved(edition, input, length, whence);
    let plain = Outcome::of(length, whence, |output| {
        plain::load(edition, sheet, seed, n, output).triple()
    });
    assert!(
        proved == plain,
        "{edition:?}, {whence}: proved {:?} {}, plain {:?} {}: seed {seed}, {n} events, {length} bytes, \
         sheet {}",
        proved.answer,
        hex(&proved.written),
        plain.answer,
        hex(&plain.written),
        hex(sheet)
    );
    proved
}

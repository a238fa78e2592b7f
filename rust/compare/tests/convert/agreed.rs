//! A conversion by the proved library and one by the plain simulator, into outputs that are alike.

use compare::{hex, Outcome};
use plain::Edition;

/// Asserts that both give the same answer and leave the same bytes, and gives them.
pub fn agreed(from: Edition, sheet: &[u8], length: usize, whence: &str) -> Outcome {
    let proved = Outcome::of(length, whence, |output| {
        compare::convert(from, sheet, output)
    });
    let plain = Outcome::of(length, whence, |output| {
        plain::convert(from, sheet, output).triple()
    });
    assert!(
        proved == plain,
        "{from:?}, {whence}: proved {:?} {}, plain {:?} {}: {length} bytes, sheet {}",
        proved.answer,
        hex(&proved.written),
        plain.answer,
        hex(&plain.written),
        hex(sheet)
    );
    proved
}

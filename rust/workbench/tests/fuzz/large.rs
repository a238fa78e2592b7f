//! Files of megabytes: what is repeated without end stops at its first mistake.

use workbench::text;

use crate::{bounded, is_within};

/// The bytes of a large file.
const LARGE: usize = 4 << 20;

fn repeated(head: &str, part: &str) -> Vec<u8> {
    format!("{head}{}", part.repeat(LARGE / part.len())).into_bytes()
}

#[test]
fn large_texts() {
    for (head, part) in [
        ("timing-1\n", "input a\n"),
        ("timing-1\n", "# nothing\n"),
        ("timing-1\n", " "),
        ("timing-1\n", "a"),
        ("timing-1\ninput a\ndrive a:", " 0 at 0,"),
        ("timing-1\ninput a\n", "drive a: 0 at 0\n"),
        ("timing-1\ninput a\nwatch a", ", a"),
        ("timing-1\ninput a\n", "raw watch a\n"),
        ("timing-1\nnode a initial X\n", "a = buffer(a) delay 1\n"),
        ("timing-2\na = and(a", ", a"),
        ("timing-1\na = memory(a, a) set {0", ", 0"),
        (
            "timing-1\nraw node a byte 9\nraw bytes from modules:",
            " 00",
        ),
        ("timing-1\ninput ", "é"),
        ("timing-1\n", "\u{0}"),
        ("timing-1", "-"),
        ("", "\n"),
    ] {
        let file = repeated(head, part);
        if let Err(mistake) = bounded(&file, text::assemble) {
            is_within(&file, &mistake);
        }
    }
}

/// A sheet can be as large, and is shown.
#[test]
fn large_sheets() {
    let mut sheet = vec![1, 0, 9];
    sheet.resize(LARGE, 0xFF);
    let card = bounded(&sheet, |sheet| {
        workbench::card::Card::of_sheet(timing::Edition::First, sheet.to_vec(), &[])
    });
    let shown = bounded(&sheet, |_| text::write(&card));
    let back = bounded(shown.as_bytes(), text::assemble).expect("it was shown");
    assert_eq!(back.sheet, sheet);
}

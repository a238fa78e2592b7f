//! The head says which card and which run it is, and what is shown of it.

use crate::finished::Finished;
use crate::shown::head;

#[test]
fn the_head_says_what_is_shown() {
    let run = Finished::worked();
    let version = format!("Library: timing {}", timing::VERSION);
    let always = [
        "worked",
        "Horizon: 12 ticks",
        "Records in the listing: 6",
        // What sha256sum prints.
        "SHA-256 of the sheet's bytes: 9a5c8a58e242f4bb17af1ecc462befa6f12155d97d233bd19928a0245c8c066e",
        &version,
    ];
    let cuts = [
        (0, 12, "The whole run"),
        (4, 12, "Cut: ticks 4 to 12"),
        (0, 11, "Cut: ticks 0 to 11"),
        (3, 8, "Cut: ticks 3 to 8"),
    ];
    for (from, to, shown) in cuts {
        let head = head(&run, from, to);
        for words in always.iter().chain([&shown]) {
            assert!(head.contains(words), "{words}: {head}");
        }
        assert_eq!(head.contains("Cut"), shown.contains("Cut"), "{head}");
    }
}

#[test]
fn the_least_and_the_last_horizon() {
    let least = head(&Finished::inputs(1, 1), 0, 1);
    assert!(least.contains("Horizon: 1 tick ·"), "{least}");
    let last = head(&Finished::inputs(1, 1_000_000), 1_000, 999_999);
    assert!(last.contains("Horizon: 1,000,000 ticks ·"), "{last}");
    assert!(last.contains("Cut: ticks 1,000 to 999,999"), "{last}");
}

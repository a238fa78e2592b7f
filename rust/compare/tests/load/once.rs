//! A loaded sheet is accepted, strictly too, and has everything of the given one but its drive; what it was
//! loaded with before does not matter.

use compare::{check, check_strict, count, hex, loaded, seed};
use generate::loads::{parts, Parts};
use generate::{Generator, LoadInput};
use plain::Edition;

/// What a stream of loads met.
#[derive(Debug, Default)]
struct Met {
    /// Sheets that a strict check accepted before, and those that it refused by 15.
    begun: u64,
    begun_late: u64,
    /// Loads that changed the sheet, and those that gave it the drive that it had.
    changed: u64,
    the_same: u64,
}

impl Met {
    fn add(&mut self, strict: [u32; 3], has_changed: bool, whence: &str) {
        match strict {
            [0, 0, 0] => self.begun += 1,
            [15, _, 0] => self.begun_late += 1,
            answer => panic!("{answer:?}, {whence}"),
        }
        match has_changed {
            true => self.changed += 1,
            false => self.the_same += 1,
        }
    }
}

/// Asserts what holds of a sheet that was loaded.
fn everything_but_the_drive(edition: Edition, given: &[u8], loaded: &[u8], whence: &str) {
    assert_eq!(check(edition, loaded), [0, 0, 0], "{whence}");
    assert_eq!(check_strict(edition, loaded), [0, 0, 0], "{whence}");
    let [given, loaded] = [given, loaded].map(|sheet| {
        let Parts { before, after, .. } = parts(edition, sheet);
        [before, after]
    });
    assert_eq!(given, loaded, "{whence}");
}

fn generated(edition: Edition) {
    let seed = seed();
    let mut generator = Generator::of(edition, seed);
    let mut met = Met::default();
    for place in 0..count(30_000) {
        let LoadInput { sheet, seed: s, n } = generator.load_input();
        let Ok(once) = loaded(edition, &sheet, s, n) else {
            continue;
        };
        let whence = format!("{edition:?}, seed {seed}, load {place}: {}", hex(&sheet));
        everything_but_the_drive(edition, &sheet, &once, &whence);
        let again = loaded(edition, &once, s, n);
        assert_eq!(again.as_ref(), Ok(&once), "{whence}");
        let [other, after] = [&sheet, &once].map(|sheet| loaded(edition, sheet, !s, n / 2));
        assert_eq!(other, after, "{whence}");
        met.add(check_strict(edition, &sheet), once != sheet, &whence);
    }
    println!("{edition:?}, seed {seed}: {met:?}");
    assert!(met.begun >= 5_000, "seed {seed}: {met:?}");
    assert!(met.begun_late >= 5_000, "seed {seed}: {met:?}");
    assert!(met.changed >= 10_000, "seed {seed}: {met:?}");
    assert!(met.the_same >= 500, "seed {seed}: {met:?}");
}

#[test]
fn of_the_first_edition() {
    generated(Edition::First);
}

#[test]
fn of_the_second_edition() {
    generated(Edition::Second);
}

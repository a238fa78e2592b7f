//! Sheets of either edition with the same inputs get the same drive from one seed and count.

use compare::{converted, count, hex, loaded, seed};
use generate::loads::parts;
use generate::{Generator, LoadInput};
use plain::{read, renumbered, Edition, Sheet};

/// An accepted sheet, and a load that is not refused.
fn accepted(edition: Edition, generator: &mut Generator) -> (Sheet, LoadInput) {
    loop {
        let input = generator.load_input();
        let LoadInput { sheet, seed, n } = &input;
        let is_loaded = loaded(edition, sheet, *seed, *n).is_ok();
        if let (true, Ok(sheet)) = (is_loaded, read(edition, sheet)) {
            return (sheet, input);
        }
    }
}

/// The bytes of the drive that a sheet is given.
fn drive(edition: Edition, sheet: &[u8], seed: u32, n: u32, whence: &str) -> Vec<u8> {
    let loaded = loaded(edition, sheet, seed, n);
    let loaded = loaded.unwrap_or_else(|refusal| panic!("{whence}: {refusal:?}"));
    parts(edition, &loaded).drive.to_vec()
}

/// Streams of sheets of an edition and of the other.
struct Streams {
    edition: Edition,
    own: Generator,
    other: Generator,
}

impl Streams {
    fn new(edition: Edition, seed: u64) -> Streams {
        Streams {
            edition,
            own: Generator::of(edition, seed),
            other: Generator::of(edition.other(), !seed),
        }
    }

    /// The sheet with its modules listed in some other order, and other sheets with the same inputs, one of
    /// each edition.
    fn with_same_inputs(&mut self, sheet: &Sheet) -> [(Edition, Vec<u8>); 3] {
        let same: Vec<u8> = sheet.node_numbers().collect();
        let order = self.own.order(sheet.modules.len());
        [
            (self.edition, renumbered(sheet, &same, &order)),
            (self.edition, self.own.with_same_inputs(sheet)),
            (self.edition.other(), self.other.with_same_inputs(sheet)),
        ]
        .map(|(edition, sheet)| (edition, sheet.encode(edition)))
    }
}

/// What a stream of such sheets met.
#[derive(Debug, Default)]
struct Met {
    /// Drives that have an event besides the inputs' own.
    drawn: u64,
    /// Sheets that were converted.
    converted: u64,
    /// Drives that are not the same from another seed.
    other_seed: u64,
}

fn generated(edition: Edition) {
    let seed = seed();
    let mut streams = Streams::new(edition, seed);
    let mut met = Met::default();
    for place in 0..count(10_000) {
        let (sheet, input) = accepted(edition, &mut streams.own);
        let LoadInput {
            sheet: bytes,
            seed: s,
            n,
        } = input;
        let whence = format!("{edition:?}, seed {seed}, load {place}: {}", hex(&bytes));
        let given = drive(edition, &bytes, s, n, &whence);
        for (edition, other) in streams.with_same_inputs(&sheet) {
            let other = drive(edition, &other, s, n, &whence);
            assert_eq!(other, given, "{edition:?} as {whence}");
        }
        if let Ok(there) = converted(edition, &bytes) {
            let to = edition.other();
            let loaded_there = loaded(to, &there, s, n);
            let loaded_here = loaded(edition, &bytes, s, n).expect(&whence);
            assert_eq!(loaded_there, converted(edition, &loaded_here), "{whence}");
            assert_eq!(drive(to, &there, s, n, &whence), given, "{whence}");
            met.converted += 1;
        }
        met.drawn += u64::from(n > 0);
        met.other_seed += u64::from(drive(edition, &bytes, s ^ 1, n, &whence) != given);
    }
    println!("{edition:?}, seed {seed}: {met:?}");
    assert!(met.drawn >= 5_000, "seed {seed}: {met:?}");
    assert!(met.converted >= 1_000, "seed {seed}: {met:?}");
    assert!(met.other_seed >= 5_000, "seed {seed}: {met:?}");
}

#[test]
fn of_the_first_edition() {
    generated(Edition::First);
}

#[test]
fn of_the_second_edition() {
    generated(Edition::Second);
}

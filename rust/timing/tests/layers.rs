//! Sheets, listings and refusals say what the calls below them answer and write.

use generate::{Generator, RunInput};
use timing::{calls, number, Edition, Failure, Level, Listing, Record, Sheet};

/// How many generated runs of each edition are looked at.
const RUNS: u32 = 12_000;

/// The bytes that the calls below are lent.
const LENT: usize = 60_000;

fn generated(edition: Edition) -> Generator {
    Generator::of(
        match edition {
            Edition::First => plain::Edition::First,
            Edition::Second => plain::Edition::Second,
        },
        3,
    )
}

/// What a run answers and writes.
fn ran(edition: Edition, input: &RunInput, bytes: usize) -> ([u32; 3], Vec<u8>) {
    let mut listing = vec![0xEE; bytes];
    let answer = match edition {
        Edition::First => calls::run(&input.sheet, input.horizon, &mut listing),
        Edition::Second => calls::run_2(&input.sheet, input.horizon, &mut listing),
    };
    listing.truncate(10 * answer[2] as usize);
    (answer, listing)
}

/// The records of a listing, by the tests' own reading of its bytes.
fn is_read_back(listing: &Listing) {
    let read = generate::sheets::records(listing.bytes());
    let record = |record: Record| (record.tick, record.node, record.value.byte(), record.end);
    assert_eq!(listing.iter().map(record).collect::<Vec<_>>(), read);
    assert_eq!(
        (listing.len(), listing.iter().len()),
        (read.len(), read.len())
    );
    assert_eq!(listing.is_empty(), read.is_empty());
}

fn runs_of(edition: Edition) {
    let mut generator = generated(edition);
    let [mut finished, mut no_room, mut crowded] = [0; 3];
    for place in 0..RUNS {
        let input = generator.run_input();
        let sheet = Sheet::new(edition, &input.sheet);
        let room = [LENT / 10, 0, 7][place as usize % 3];
        let (answer, written) = ran(edition, &input, 10 * room);
        match sheet.run(input.horizon, room) {
            Ok(listing) => {
                assert_eq!((answer[0], listing.bytes()), (0, &written[..]));
                is_read_back(&listing);
                finished += 1;
            }
            Err(refusal) => {
                assert_eq!(answer, [refusal.number(), refusal.place(), refusal.count()]);
                assert_eq!(refusal.left().bytes(), written);
                is_read_back(refusal.left());
                assert_eq!(
                    refusal.to_string(),
                    plain::sentence(plain::Answer::of_triple(answer))
                );
                no_room += u32::from(refusal.number() == number::NO_ROOM && refusal.count() > 0);
                crowded += u32::from(refusal.number() == number::CROWDED && refusal.count() > 0);
            }
        }
    }
    assert!(
        finished > 1_000 && no_room > 100 && crowded >= 5,
        "{finished} {no_room} {crowded}"
    );
}

#[test]
fn runs_of_the_first_edition() {
    runs_of(Edition::First);
}

#[test]
fn runs_of_the_second_edition() {
    runs_of(Edition::Second);
}

/// A whole run is the one with all the room there can be; it is never refused for its room.
#[test]
fn whole_runs() {
    for edition in Edition::ALL {
        let mut generator = generated(edition);
        for _ in 0..500 {
            let input = generator.run_input();
            let sheet = Sheet::new(edition, &input.sheet);
            let expected = sheet.run(input.horizon, 300_000);
            match sheet.run_whole(input.horizon) {
                Ok(listing) => assert_eq!(Ok(listing), expected),
                Err(Failure::Refused(refusal)) => {
                    assert_ne!(refusal.number(), number::NO_ROOM);
                    assert_eq!(Err(refusal), expected);
                }
                Err(failure) => panic!("{failure}"),
            }
        }
    }
}

/// The room grows as far as a listing can.
#[test]
fn room_for_every_record() {
    // Two nodes that change at every tick: the longest listing that a sheet of two nodes has.
    let ring = |node: u8| [2, 0, node, node, 0, 1, 0];
    let sheet = [
        &[2, 0, 0, 0, 2, 0][..],
        &ring(0),
        &ring(1),
        &[0, 0, 2, 0, 0, 1],
    ]
    .concat();
    let listing = Sheet::new(Edition::First, &sheet)
        .run_whole(50_000)
        .expect("it finishes");
    assert_eq!(listing.len(), 100_000);
    assert!(listing.iter().all(|record| record.end == record.tick + 1));
}

#[test]
fn reports() {
    for edition in Edition::ALL {
        let mut generator = generated(edition);
        let mut pulses = 0;
        for _ in 0..1_000 {
            let RunInput { sheet, horizon } = generator.run_input();
            let [mut listing, mut report] = [vec![0; LENT], vec![0; LENT]];
            let answer = match edition {
                Edition::First => calls::pulses(&sheet, horizon, 9, &mut listing, &mut report),
                Edition::Second => calls::pulses_2(&sheet, horizon, 9, &mut listing, &mut report),
            };
            match Sheet::new(edition, &sheet).pulses(horizon, 9, LENT / 10) {
                Ok(found) => {
                    let found: Vec<_> = found
                        .iter()
                        .map(|pulse| (pulse.start, pulse.node, pulse.length))
                        .collect();
                    assert_eq!(answer, [0, 0, found.len() as u32]);
                    assert_eq!(found, generate::sheets::pulses(&report[..9 * found.len()]));
                    pulses += found.len();
                }
                Err(refusal) => {
                    assert_eq!(answer, [refusal.number(), refusal.place(), refusal.count()])
                }
            }
        }
        assert!(pulses > 1_000, "{pulses}");
    }
}

/// Checks, conversions and loads.
#[test]
fn other_calls() {
    for edition in Edition::ALL {
        let mut generator = generated(edition);
        let [mut accepted, mut converted] = [0; 2];
        for seed in 0..2_000 {
            let bytes = generator.any();
            let sheet = Sheet::new(edition, &bytes);
            let of_plain = match edition {
                Edition::First => plain::Edition::First,
                Edition::Second => plain::Edition::Second,
            };
            let check = plain::check(of_plain, &bytes);
            accepted += u32::from(sheet.check().is_ok());
            let triple = |answer: Result<(), timing::Refusal>| match answer {
                Ok(()) => [0, 0, 0],
                Err(refusal) => [refusal.number(), refusal.place(), refusal.count()],
            };
            assert_eq!(triple(sheet.check()), check.triple());
            assert_eq!(
                triple(sheet.check_strict()),
                plain::check_strict(of_plain, &bytes).triple()
            );
            let mut output = vec![0; 9_000];
            let answer = plain::convert(of_plain, &bytes, &mut output);
            converted += u32::from(is_written(sheet.convert(), answer, &output));
            let answer = plain::load(of_plain, &bytes, seed, 20, &mut output);
            is_written(sheet.load(seed, 20), answer, &output);
        }
        assert!(accepted > 500 && converted > 100, "{accepted} {converted}");
    }
}

/// Whether a sheet was written, and asserts that it, or its refusal, is the expected one.
fn is_written(
    made: Result<Vec<u8>, timing::Refusal>,
    expected: plain::Answer,
    output: &[u8],
) -> bool {
    let [number, place, count] = expected.triple();
    match made {
        Ok(sheet) => {
            assert_eq!((number, &sheet[..]), (0, &output[..count as usize]));
            true
        }
        Err(refusal) => {
            assert_eq!(
                [refusal.number(), refusal.place(), refusal.count()],
                [number, place, count]
            );
            assert!(refusal.left().is_empty());
            false
        }
    }
}

#[test]
fn levels() {
    let letters: String = Level::ALL.iter().map(Level::to_string).collect();
    assert_eq!(letters, "01XZ");
    for (byte, level) in (0..).zip(Level::ALL) {
        assert_eq!((level.byte(), Level::from_byte(byte)), (byte, Some(level)));
    }
    assert_eq!(Level::from_byte(4), None);
}

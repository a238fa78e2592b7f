//! Calls from C: the answer and every byte of the buffers are the plain simulator's.

use std::collections::BTreeSet;
use std::sync::LazyLock;

use compare::hex;
use generate::limits::RECORD_BYTES;
use generate::shared::{four_buffers, toggled};
use generate::sheets::constant;
use generate::{
    by_hand, conversions_by_hand, drivers_by_hand, loads_by_hand, pulses_by_hand, runs_by_hand,
    Generator,
};
use plain::{sentence, worked_run, Answer, Edition, Sheet, HIGH};

use crate::compiled::Program;
use crate::header::macro_of;

static CALLS: LazyLock<Program> = LazyLock::new(|| Program::new("calls"));

/// What a buffer is filled with before a call.
const UNTOUCHED: u8 = 0xA5;

fn words([number, place, count]: [u32; 3]) -> String {
    format!("{number} {place} {count}\n")
}

/// The name of a call for sheets of an edition.
fn call_of(edition: Edition, name: &str) -> String {
    match edition {
        Edition::First => name.to_string(),
        Edition::Second => format!("{name}_2"),
    }
}

/// Asserts that a check and a strict one from C answer what the plain simulator does, and gives the
/// numbers.
fn checked(edition: Edition, sheet: &[u8], whence: &str) -> [u32; 2] {
    let answers = [
        ("check", plain::check(edition, sheet)),
        ("check_strict", plain::check_strict(edition, sheet)),
    ];
    answers.map(|(name, answer)| {
        let answer = answer.triple();
        let call = [call_of(edition, name)];
        let printed = CALLS.printed(&call, sheet);
        assert_eq!(printed, words(answer), "{call:?}, {whence}: {}", hex(sheet));
        answer[0]
    })
}

/// Asserts that a run from C answers what the plain simulator does and leaves the same bytes, and
/// gives the answer.
fn ran(edition: Edition, sheet: &[u8], horizon: u32, bytes: usize, whence: &str) -> [u32; 3] {
    let mut listing = vec![UNTOUCHED; bytes];
    let answer = plain::run(edition, sheet, horizon, &mut listing).triple();
    let call = call_of(edition, "run");
    let arguments = [call, horizon.to_string(), bytes.to_string()];
    let printed = CALLS.printed(&arguments, sheet);
    let expected = format!("{}{}\n", words(answer), hex(&listing));
    assert_eq!(printed, expected, "{whence}: {}", hex(sheet));
    answer
}

/// Asserts that a report of pulses from C answers what the plain simulator does and leaves the same bytes in
/// both buffers, and gives the answer.
fn reported(
    edition: Edition,
    sheet: &[u8],
    [horizon, width]: [u32; 2],
    bytes: [usize; 2],
    whence: &str,
) -> [u32; 3] {
    let [mut listing, mut report] = bytes.map(|bytes| vec![UNTOUCHED; bytes]);
    let answer = plain::pulses(edition, sheet, horizon, width, &mut listing, &mut report).triple();
    let mut arguments = vec![call_of(edition, "pulses")];
    arguments.extend([horizon, width].map(|word| word.to_string()));
    arguments.extend(bytes.map(|bytes| bytes.to_string()));
    let printed = CALLS.printed(&arguments, sheet);
    let expected = format!("{}{}\n{}\n", words(answer), hex(&listing), hex(&report));
    assert_eq!(printed, expected, "{whence}: {}", hex(sheet));
    answer
}

/// Asserts that a conversion from C answers what the plain simulator does and leaves the same bytes, and
/// gives the answer.
fn converted(from: Edition, sheet: &[u8], bytes: usize, whence: &str) -> [u32; 3] {
    let mut output = vec![UNTOUCHED; bytes];
    let answer = plain::convert(from, sheet, &mut output).triple();
    let call = match from {
        Edition::First => "convert_1_to_2",
        Edition::Second => "convert_2_to_1",
    };
    let printed = CALLS.printed(&[call.to_string(), bytes.to_string()], sheet);
    let expected = format!("{}{}\n", words(answer), hex(&output));
    assert_eq!(printed, expected, "{whence}: {}", hex(sheet));
    answer
}

/// Asserts that a load from C answers what the plain simulator does and leaves the same bytes, and gives the
/// answer.
fn loaded(
    edition: Edition,
    sheet: &[u8],
    [seed, n]: [u32; 2],
    bytes: usize,
    whence: &str,
) -> [u32; 3] {
    let mut output = vec![UNTOUCHED; bytes];
    let answer = plain::load(edition, sheet, seed, n, &mut output).triple();
    let mut arguments = vec![call_of(edition, "load")];
    arguments.extend([seed, n].map(|word| word.to_string()));
    arguments.push(bytes.to_string());
    let printed = CALLS.printed(&arguments, sheet);
    let expected = format!("{}{}\n", words(answer), hex(&output));
    assert_eq!(printed, expected, "{whence}: {}", hex(sheet));
    answer
}

/// Asserts that an answer is described from C as the plain simulator does it, and gives the answer
/// to that.
fn described(triple: [u32; 3], bytes: usize) -> [u32; 3] {
    let mut text = vec![UNTOUCHED; bytes];
    let answer = plain::describe(Answer::of_triple(triple), &mut text).triple();
    let words = triple.map(|word| word.to_string());
    let arguments = [&["describe".into()], &words[..], &[bytes.to_string()]].concat();
    let printed = CALLS.printed(&arguments, &[]);
    let expected = format!("{}{}\n", self::words(answer), hex(&text));
    assert_eq!(printed, expected, "{triple:?} in {bytes} bytes");
    answer
}

/// Every number from C, in a text of exactly its length and in one that is a byte short.
#[test]
fn answers_described() {
    for number in 0..=40 {
        let triple = [number, 4_294_967_295, 10];
        let length = sentence(Answer::of_triple(triple)).len();
        assert_eq!(described(triple, length), [0, 0, length as u32]);
        assert_eq!(described(triple, length - 1), [21, length as u32, 0]);
        assert_eq!(described(triple, 256), [0, 0, length as u32]);
    }
}

#[test]
fn the_worked_run() {
    for edition in Edition::ALL {
        let sheet = worked_run::sheet().encode(edition);
        let run = |bytes| ran(edition, &sheet, worked_run::HORIZON, bytes, "worked run");
        assert_eq!(run(60), [0, 0, 6]);
        assert_eq!(run(60_000), [0, 0, 6]);
        assert_eq!(run(59), [19, 11, 5]);
        assert_eq!(run(0), [19, 0, 0]);
        assert_eq!(checked(edition, &sheet, "worked run"), [0, 0]);
    }
}

/// The horizon, 19 and 20; a sheet's refusals are below.
#[test]
fn refusals_of_a_run() {
    let mut modules = four_buffers();
    modules.push(constant(HIGH, 5, 5_000));
    let crowded = toggled(&modules);
    for edition in Edition::ALL {
        let run = |sheet: &Sheet, horizon, bytes| {
            ran(edition, &sheet.encode(edition), horizon, bytes, "refused")
        };
        for horizon in [0, 1_000_001, u32::MAX] {
            assert_eq!(run(&worked_run::sheet(), horizon, 60), [1, 0, 0]);
        }
        assert_eq!(run(&crowded, 10_000, 60_000), [20, 1_023, 1_024]);
        // No room before 4,097 are pending.
        let bytes = RECORD_BYTES * 1_024 - 1;
        assert_eq!(run(&crowded, 10_000, bytes), [19, 1_023, 1_023]);
    }
}

/// Every sheet worked out by hand, checked, checked strictly and run: refusals 2 to 18 but 9, 15 strictly
/// alone, and 19 for the small buffer.
#[test]
fn sheets_worked_out_by_hand() {
    for edition in Edition::ALL {
        let mut met = [(); 3].map(|()| BTreeSet::new());
        let mut cases = by_hand::cases();
        cases.retain(|case| case.edition == edition);
        for case in cases {
            let [check, strict] = checked(edition, &case.sheet, case.name);
            let [run, ..] = ran(edition, &case.sheet, 12, 120, case.name);
            for (met, number) in met.iter_mut().zip([check, strict, run]) {
                met.insert(number);
            }
        }
        let [check, strict, run] = met;
        let without = |number: u32| move |met: &u32| *met != number;
        let numbers = [0].into_iter().chain(2..=18);
        assert_eq!(strict, numbers.filter(without(9)).collect());
        assert_eq!(check, strict.iter().copied().filter(without(15)).collect());
        assert_eq!(run, check.iter().copied().chain([19]).collect());
    }
}

/// Document 02's W-207 from C, the worked run's sheet included: refusals 2 to 18 but 9 and 15, 22 and 23, and
/// what is written.
#[test]
fn conversions_worked_out_by_hand() {
    for case in conversions_by_hand::cases() {
        let answer = converted(case.from, &case.sheet, case.bytes, &case.whence());
        assert_eq!(answer, case.answer, "{}", case.whence());
    }
}

/// Document 02's W-208 from C: every refusal of a run, 24 and 25, and what both buffers hold.
#[test]
fn pulses_worked_out_by_hand() {
    for case in pulses_by_hand::cases() {
        let numbers = [case.horizon, case.width];
        let bytes = [case.listing_bytes, case.report_bytes];
        let answer = reported(case.edition, &case.sheet, numbers, bytes, &case.whence());
        assert_eq!(answer, case.answer, "{}", case.whence());
    }
}

/// Document 02's W-210 from C: refusals 2 to 18 but 9 and 15, 23 and 26, and what is written.
#[test]
fn loads_worked_out_by_hand() {
    for case in loads_by_hand::cases() {
        let numbers = [case.seed, case.n];
        let answer = loaded(
            case.edition,
            &case.sheet,
            numbers,
            case.bytes,
            &case.whence(),
        );
        assert_eq!(answer, case.answer, "{}", case.whence());
    }
}

/// Document 02's W-205 from C.
#[test]
fn runs_of_three_inputs() {
    for case in runs_by_hand::cases() {
        let sheet = case.sheet.encode(Edition::Second);
        let answer = ran(Edition::Second, &sheet, case.horizon, 120, case.name);
        assert_eq!(answer, [0, 0, case.records.len() as u32], "{}", case.name);
    }
}

/// Document 02's W-209 from C.
#[test]
fn runs_of_several_drivers() {
    for case in drivers_by_hand::cases() {
        for edition in Edition::ALL {
            let sheet = case.sheet.encode(edition);
            let answer = ran(edition, &sheet, case.horizon, case.bytes, case.name);
            assert_eq!(answer, case.answer, "{}", case.name);
            assert_eq!(checked(edition, &sheet, case.name)[0], 0, "{}", case.name);
        }
    }
}

#[test]
fn a_full_sheet() {
    for (edition, name) in [
        (Edition::First, "TIMING_LONGEST_SHEET"),
        (Edition::Second, "TIMING_LONGEST_SHEET_2"),
    ] {
        let sheet = Generator::of(edition, 4).longest().encode(edition);
        assert_eq!(sheet.len(), macro_of(name) as usize);
        let [number, ..] = ran(edition, &sheet, 20, 60_000, "full");
        assert_eq!(number, 0);
        let [number, ..] = reported(edition, &sheet, [20, 20], [60_000, 60_000], "full");
        assert_eq!(number, 0);
        // Many modules of the second edition's sheet have three inputs.
        let [number, ..] = converted(edition, &sheet, 60_000, "full");
        assert_eq!(number, if edition == Edition::First { 0 } else { 22 });
        // It has one input.
        let [number, _, count] = loaded(edition, &sheet, [7, 1_023], 60_000, "full");
        assert_eq!([number, count], [0, sheet.len() as u32]);
    }
}

//! Checking a sheet: the proved library gives the plain simulator's answers, and document 01's.

use compare::{count, hex, seed};
use generate::drivers::has_several_drivers;
use generate::limits::LONGEST_SHEETS;
use generate::sheets::*;
use generate::{assert_met, by_hand, every, starts_of, Generator, Size, Start};
use plain::{worked_run, Answer, Edition, Sheet, HIGH, INPUT, UNKNOWN};

/// The check's answer and the strict check's, by the proved library.
fn proved(edition: Edition, sheet: &[u8]) -> [[u32; 3]; 2] {
    [
        compare::check(edition, sheet),
        compare::check_strict(edition, sheet),
    ]
}

/// Asserts that both simulators give the bytes the same answers, and gives them.
fn agreed(edition: Edition, sheet: &[u8], whence: &str) -> [[u32; 3]; 2] {
    let proved = proved(edition, sheet);
    let plain = [
        plain::check(edition, sheet),
        plain::check_strict(edition, sheet),
    ]
    .map(Answer::triple);
    assert_eq!(
        proved,
        plain,
        "{edition:?}, proved, then plain: {whence}: {}",
        hex(sheet)
    );
    let [plainly, strictly] = proved;
    assert!(strictly == plainly || strictly[0] == 15, "{whence}");
    proved
}

fn generated(edition: Edition) {
    let seed = seed();
    let mut generator = Generator::of(edition, seed);
    let mut met = [[0u64; 19]; 2];
    let mut several_drivers = 0;
    for place in 0..count(200_000) {
        let sheet = generator.any();
        let answers = agreed(edition, &sheet, &format!("seed {seed}, sheet {place}"));
        for (met, [number, ..]) in met.iter_mut().zip(answers) {
            met[number as usize] += 1;
        }
        let accepted = plain::read(edition, &sheet);
        several_drivers += u64::from(accepted.is_ok_and(|sheet| has_several_drivers(&sheet)));
    }
    println!("{edition:?}: answers by number, 0 for accepted, then of a strict check: {met:?}");
    println!("{edition:?}: {several_drivers} accepted sheets with several drivers a node");
    // Several drivers are not refused: 9 is never given.
    assert_met(&met[0], 100, &[1, 9, 15], &format!("seed {seed}"));
    assert_met(&met[1], 100, &[1, 9], &format!("seed {seed}, strictly"));
    assert!(met.iter().all(|met| met[0] >= 10_000), "seed {seed}");
    assert!(several_drivers >= 10_000, "seed {seed}: {several_drivers}");
}

#[test]
fn generated_sheets() {
    generated(Edition::First);
}

#[test]
fn generated_sheets_of_the_second_edition() {
    generated(Edition::Second);
}

#[test]
fn every_truncation() {
    for edition in Edition::ALL {
        let mut generator = Generator::of(edition, 2);
        let sizes = [Size::Tiny, Size::Small, Size::Medium, Size::Full];
        let mut sheets = sizes.map(|size| generator.valid(size)).to_vec();
        sheets.push(generator.zero_delay().sheet);
        sheets.push(generator.several_drivers(Size::Small));
        sheets.push(worked_run::sheet());
        for sheet in sheets {
            for cut in every::truncations(&sheet.encode(edition)) {
                agreed(edition, cut, "cut short");
            }
        }
    }
}

#[test]
fn every_value_of_every_byte() {
    for edition in Edition::ALL {
        let sheets = [
            worked_run::sheet(),
            by_hand::start(),
            by_hand::start_2(),
            by_hand::two_drivers(),
        ];
        for sheet in sheets {
            for changed in every::single_bytes(&sheet.encode(edition)) {
                agreed(edition, &changed, "one byte changed");
            }
        }
    }
}

#[test]
fn answers_worked_out_by_hand() {
    for case in by_hand::cases() {
        let answers = proved(case.edition, &case.sheet);
        assert_eq!(answers, [case.answer, case.strict], "{}", case.name);
    }
}

/// The first edition's answer as the second edition gives it: a byte past a module is one further for
/// each record before it.
fn in_second(sheet: &Sheet, [number, place, count]: [u32; 3]) -> [u32; 3] {
    let modules = 4 + sheet.nodes.len() as u32;
    let is_byte = !matches!(number, 0 | 10 | 15 | 18);
    let place = match place.checked_sub(modules) {
        Some(within) if is_byte => place + (within / 7).min(sheet.modules.len() as u32),
        _ => place,
    };
    [number, place, count]
}

/// Document 02, W-205: a sheet of the first edition, with third inputs of 0, is one of the second.
#[test]
fn sheets_of_the_first_edition_in_the_second() {
    let seed = 46;
    let mut generator = Generator::new(seed);
    let mut met = [0u64; 19];
    for place in 0..50_000 {
        let sheet = generator.faulty(1);
        if sheet.modules.iter().any(|module| module.kind == AND_3) {
            continue;
        }
        let whence = format!("seed {seed}, sheet {place}");
        let answers = |edition| agreed(edition, &sheet.encode(edition), &whence);
        let [first, second] = Edition::ALL.map(answers);
        let expected = first.map(|answer| in_second(&sheet, answer));
        assert_eq!(second, expected, "{whence}");
        for [number, ..] in first {
            met[number as usize] += 1;
        }
    }
    println!("answers of both checks by number, 0 for accepted: {met:?}");
    // Every record is whole and nothing is left over.
    assert_met(&met, 100, &[1, 2, 3, 9, 17], &format!("seed {seed}"));
}

/// An input and a module that drives node 1, which is watched.
fn one_module(kind: u8, inputs: [u8; 2], delay: u16) -> Sheet {
    Sheet {
        modules: vec![gate(kind, inputs, 1, delay)],
        ..worked_run::sheet()
    }
}

#[test]
fn examples_of_document_01() {
    for edition in Edition::ALL {
        let checked = |sheet: Sheet| compare::check(edition, &sheet.encode(edition));
        assert_eq!(checked(worked_run::sheet()), [0, 0, 0]);
        // The module's record stands at byte 6.
        assert_eq!(checked(one_module(BUFFER, [0, 0], 10_000)), [0, 0, 0]);
        assert_eq!(checked(one_module(BUFFER, [0, 0], 10_001)), [8, 6, 0]);
        // An inverter onto its own input.
        assert_eq!(checked(one_module(INVERTER, [1, 0], 1)), [0, 0, 0]);
        assert_eq!(checked(one_module(INVERTER, [1, 0], 0)), [18, 1, 0]);
    }
    let as_printed = compare::check(Edition::First, worked_run::SHEET);
    assert_eq!(as_printed, [0, 0, 0]);
}

#[test]
fn no_bytes_at_all() {
    for edition in Edition::ALL {
        assert_eq!(proved(edition, &[]), [[2, 0, 0]; 2]);
    }
}

/// Every section is full: with an input, and so with a drive, two of the 256 modules drive one node.
#[test]
fn the_longest_sheets() {
    for (edition, longest) in Edition::ALL.into_iter().zip(LONGEST_SHEETS) {
        let mut generator = Generator::of(edition, 3);
        for _ in 0..20 {
            let sheet = generator.longest();
            let begins = starts_of(&sheet) == [Start::AtOnce];
            let sheet = sheet.encode(edition);
            assert_eq!(sheet.len(), longest);
            let [plainly, strictly] = agreed(edition, &sheet, "longest");
            assert_eq!(plainly, [0, 0, 0]);
            assert_eq!(strictly[0], if begins { 0 } else { 15 });
            let left_over = [&sheet[..], &[0]].concat();
            let refused = [17, longest as u32, 0];
            assert_eq!(compare::check(edition, &left_over), refused);
            for cut in [1, 2, 256, 258] {
                agreed(edition, &sheet[..longest - cut], "cut short");
            }
        }
    }
}

/// One input, 255 nodes that follow it, the last one by two modules: a strict check accepts it, too.
#[test]
fn a_full_sheet() {
    for (edition, longest) in Edition::ALL.into_iter().zip(LONGEST_SHEETS) {
        let mut nodes = [0; 256];
        nodes[0] = INPUT;
        let outputs = (1..=u8::MAX).chain([u8::MAX]);
        let modules: Vec<_> = outputs.map(|node| gate(BUFFER, [0], node, 1)).collect();
        let drive: Vec<Change> = (0..1_024).map(|tick| (tick, 0, 1)).collect();
        let watched: Vec<u8> = (0..=u8::MAX).collect();
        let sheet = sheet(&nodes, &modules, &drive, &watched).encode(edition);
        assert_eq!(sheet.len(), longest);
        assert_eq!(proved(edition, &sheet), [[0, 0, 0]; 2]);
    }
}

/// Node 0 is an input and each other node a zero-delay gate of the one before and node 0, but for
/// node 1, which has the last input and the delay given. The last module is listed first.
fn chain(kind: u8, last: u8, delay: u16) -> Sheet {
    let first_module = || {
        let mut module = gate(kind, [], 1, delay);
        let input = module.used_inputs_mut().last();
        *input.expect("a gate has inputs") = last;
        module
    };
    let module = |output: u8| match output {
        1 => first_module(),
        _ => gate(kind, [output - 1], output, 0),
    };
    let mut nodes = vec![UNKNOWN; 256];
    nodes[0] = INPUT;
    Sheet {
        nodes,
        modules: (1..=u8::MAX).rev().map(module).collect(),
        drive: vec![event(0, 0, HIGH)],
        watched: vec![255],
    }
}

#[test]
fn long_zero_delay_chains() {
    for (edition, kind) in [
        (Edition::First, AND),
        (Edition::Second, AND),
        (Edition::Second, AND_3),
        (Edition::Second, MULTIPLEXER),
    ] {
        let checked = |last, delay| {
            let sheet = chain(kind, last, delay);
            compare::check(edition, &sheet.encode(edition))
        };
        assert_eq!(checked(0, 0), [0, 0, 0], "kind {kind}");
        assert_eq!(checked(255, 0), [18, 1, 0], "kind {kind}");
        assert_eq!(checked(255, 1), [0, 0, 0], "kind {kind}");
    }
}

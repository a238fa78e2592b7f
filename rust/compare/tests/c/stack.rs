//! No call uses more stack than the header says.

use generate::limits::MOST_NODES;
use generate::sheets::sheet;
use generate::{Generator, Size};
use plain::{worked_run, Edition, INPUT};

use crate::compiled::Program;
use crate::header::macro_of;

/// Refused at once, small, with nothing but inputs, and every section at its limit, half of them with
/// several drivers a node. Of those in the second edition half have the first's kinds alone, so that they
/// are converted.
fn sheets(edition: Edition) -> Vec<Vec<u8>> {
    let kinds_of = match edition {
        Edition::First => &[Edition::First][..],
        Edition::Second => &Edition::ALL,
    };
    let full = kinds_of.iter().flat_map(|&kinds_of| {
        let mut generator = Generator::of(kinds_of, 5);
        (0..8).map(move |place| {
            let sheet = match place % 2 {
                0 => generator.valid(Size::Full),
                _ => generator.longest(),
            };
            sheet.encode(edition)
        })
    });
    let inputs = sheet(&[INPUT; MOST_NODES], &[], &[], &[]);
    let others = [
        Vec::new(),
        worked_run::sheet().encode(edition),
        inputs.encode(edition),
    ];
    others.into_iter().chain(full).collect()
}

/// The bytes of stack that the call uses over a sheet.
fn used(program: &Program, arguments: &[&str], sheet: &[u8]) -> u32 {
    let arguments: Vec<String> = arguments.iter().map(|&word| word.into()).collect();
    let printed = program.printed(&arguments, sheet);
    printed.trim().parse().expect("it prints a number")
}

/// The most that it uses over the sheets of its edition.
fn most_used(program: &Program, edition: Edition, arguments: &[&str]) -> u32 {
    let used = sheets(edition)
        .into_iter()
        .map(|sheet| used(program, arguments, &sheet));
    used.max().expect("there are sheets")
}

/// The most that a description uses: of every number, with the longest place and count.
fn most_described(program: &Program) -> u32 {
    let used = (0..=40).map(|number| {
        let number = number.to_string();
        used(
            program,
            &["describe", &number, "4294967295", "4294967295"],
            &[],
        )
    });
    used.max().expect("there are numbers")
}

/// Asserts that the header says enough, and not more than twice of what is used.
fn stated(name: &str, used: u32) {
    let said = macro_of(name);
    println!("{name} {said}, used {used}");
    assert!(used <= said && said <= 2 * used, "{name} {said}: {used}");
}

#[test]
fn the_stack_of_every_call() {
    let program = Program::new("stack");
    for (edition, [check, check_strict, convert, load], [run, pulses]) in [
        (
            Edition::First,
            ["check", "check_strict", "convert_1_to_2", "load"],
            ["run", "pulses"],
        ),
        (
            Edition::Second,
            ["check_2", "check_strict_2", "convert_2_to_1", "load_2"],
            ["run_2", "pulses_2"],
        ),
    ] {
        let most_used = |arguments: &[&str]| most_used(&program, edition, arguments);
        stated("TIMING_CHECK_STACK", most_used(&[check]));
        stated("TIMING_CHECK_STACK", most_used(&[check_strict]));
        stated("TIMING_CHECK_STACK", most_used(&[convert]));
        // 256 inputs fill a drive with so many.
        stated("TIMING_CHECK_STACK", most_used(&[load, "7", "768"]));
        stated("TIMING_RUN_STACK", most_used(&[run, "2000"]));
        stated("TIMING_RUN_STACK", most_used(&[pulses, "2000", "100"]));
    }
    stated("TIMING_DESCRIBE_STACK", most_described(&program));
}

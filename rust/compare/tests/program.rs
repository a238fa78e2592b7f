//! The program, run as a process, prints what the plain simulator says it prints.

use std::io::{ErrorKind, Write};
use std::process::{Command, Stdio};

use compare::{hex, program, seed};
use generate::limits::{LAST_HORIZON, LONGEST_SHEETS, MOST_PRINTED};
use generate::sheets::*;
use generate::{by_hand, drivers_by_hand, Generator};
use plain::{sentence, worked_run, Answer, Edition, HIGH, INPUT, LOW};

/// Starts a program with a stack of 1,024 KiB: it must need less.
const WITH_SMALL_STACK: &str = r#"ulimit -s 1024 && exec "$0""#;

/// What the program prints for this standard input, which is short enough for a pipe.
fn printed(input: &[u8]) -> Vec<u8> {
    let program = program();
    let mut child = Command::new("sh")
        .args(["-c", WITH_SMALL_STACK])
        .arg(&program)
        .stdin(Stdio::piped())
        .stdout(Stdio::piped())
        .stderr(Stdio::piped())
        .spawn()
        .unwrap_or_else(|error| panic!("{}: {error}", program.display()));
    let mut stdin = child.stdin.take().expect("it was piped");
    if let Err(error) = stdin.write_all(input) {
        // The program may end before it has read what it does not look at.
        assert_eq!(error.kind(), ErrorKind::BrokenPipe);
    }
    drop(stdin);
    let output = child.wait_with_output().expect("it was started");
    assert!(output.status.success(), "{:?}", output.status);
    // The test `standard_error` has the input that is spoken of there.
    assert!(output.stderr.is_empty() || input.is_empty());
    output.stdout
}

/// Asserts that it prints what is expected, byte for byte, and gives its first word.
fn agreed(input: &[u8], whence: &str) -> String {
    let (printed, expected) = (printed(input), plain::program(input));
    let text = String::from_utf8_lossy(&printed);
    assert!(
        printed == expected,
        "{whence}: printed\n{text}instead of\n{}for {}",
        String::from_utf8_lossy(&expected),
        hex(input)
    );
    let word = text.split([' ', ',', ':']).next();
    word.expect("a split text has a part").to_string()
}

/// The one line that is printed of a refusal.
fn refused(triple: [u32; 3]) -> Vec<u8> {
    (sentence(Answer::of_triple(triple)) + "\n").into_bytes()
}

/// The standard input for a run.
fn input(horizon: u32, sheet: &[u8]) -> Vec<u8> {
    [&horizon.to_le_bytes(), sheet].concat()
}

#[test]
fn the_worked_run() {
    assert_eq!(printed(&worked_run::INPUT), worked_run::PRINTED.as_bytes());
    for length in 0..worked_run::INPUT.len() {
        assert_eq!(agreed(&worked_run::INPUT[..length], "cut short"), "refused");
    }
}

/// The first of the runs that the library is given.
#[test]
fn generated_runs() {
    let seed = seed();
    let mut generator = Generator::new(seed);
    let (mut ran, mut refused) = (0, 0);
    for place in 0..500 {
        let run = generator.run_input();
        let whence = format!("seed {seed}, run {place}");
        match agreed(&input(run.horizon, &run.sheet), &whence).as_str() {
            "finished" => ran += 1,
            "refused" => refused += 1,
            other => panic!("{whence}: {other}"),
        }
    }
    println!("{ran} ran, {refused} were refused");
    assert!(ran >= 200 && refused >= 50, "{ran} ran, {refused} refused");
}

#[test]
fn bytes_past_the_longest_sheet() {
    // The horizon and the 8,457 bytes that are read at most, one less and more.
    for length in [8_460, 8_461, 8_462, 20_000] {
        let mut input = worked_run::INPUT.to_vec();
        input.resize(length, 0);
        assert_eq!(printed(&input), refused([17, 31, 0]), "{length} bytes");
    }
}

/// Every section is full, and the byte after the last one is seen.
#[test]
fn the_longest_sheet() {
    let sheet = Generator::new(3).longest().encode(Edition::First);
    assert_eq!(sheet.len(), LONGEST_SHEETS[0]);
    assert_eq!(agreed(&input(20, &sheet), "the longest"), "finished");
    let left_over = [&sheet[..], &[0]].concat();
    let place = LONGEST_SHEETS[0] as u32;
    assert_eq!(printed(&input(20, &left_over)), refused([17, place, 0]));
}

/// Document 02's W-209.
#[test]
fn several_drivers() {
    for case in drivers_by_hand::cases() {
        let sheet = case.sheet.encode(Edition::First);
        let word = if case.answer[0] == 0 {
            "finished"
        } else {
            "refused"
        };
        assert_eq!(agreed(&input(case.horizon, &sheet), case.name), word);
    }
}

/// It keeps to the first edition: the second record of 8 bytes is taken to begin a byte early.
#[test]
fn a_sheet_of_the_second_edition() {
    let sheet = by_hand::start_2().encode(Edition::Second);
    assert_eq!(printed(&input(12, &sheet)), refused([6, 15, 0]));
}

/// An inverter onto its own input has a record at each tick.
#[test]
fn the_lent_room() {
    let ring = sheet(&[LOW], &[gate(INVERTER, [0, 0], 0, 1)], &[], &[0]);
    let ring = ring.encode(Edition::First);
    for (horizon, word) in [(MOST_PRINTED, "finished"), (MOST_PRINTED + 1, "refused")] {
        assert_eq!(agreed(&input(horizon, &ring), "the lent room"), word);
    }
}

/// Node 100 is the NAND of itself and node 0, with delay 1: it stays high as long as the input is
/// low, and changes at every tick after the one at which the input goes high.
fn late_oscillator(high_from: u32) -> Vec<u8> {
    let mut nodes = vec![INPUT; 100];
    nodes.push(HIGH);
    let mut drive: Vec<Change> = (0..100).map(|node| (0, node, LOW)).collect();
    drive.push((high_from, 0, HIGH));
    let sheet = sheet(&nodes, &[gate(NAND, [0, 100], 100, 1)], &drive, &[100]);
    sheet.encode(Edition::First)
}

/// All 6,000 records that the lent room takes, up to the last horizon: the node has three digits, every
/// tick but the first has six and so has every end but the last, which has seven. No run prints more.
#[test]
fn the_longest_text() {
    let first_change = LAST_HORIZON - (MOST_PRINTED - 1);
    let mut expected = format!("finished, with a count of 6000\n0 100 1 {first_change}\n");
    let values = [0, 1].into_iter().cycle();
    for (tick, value) in (first_change..LAST_HORIZON).zip(values) {
        expected += &format!("{tick} 100 {value} {}\n", tick + 1);
    }
    assert_eq!(expected.len(), 31 + 15 + 5_998 * 20 + 21);
    let longest = input(LAST_HORIZON, &late_oscillator(first_change - 1));
    assert_eq!(agreed(&longest, "the longest text"), "finished");
    assert!(printed(&longest) == expected.as_bytes(), "a line differs");
    // A tick earlier there is one record more, which finds no room.
    let one_more = input(LAST_HORIZON, &late_oscillator(first_change - 2));
    assert_eq!(printed(&one_more), refused([19, 999_999, 6_000]));
}

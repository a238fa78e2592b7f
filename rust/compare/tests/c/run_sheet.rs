//! The example that runs a file's sheet: what it prints, and its exit status.

use std::collections::BTreeSet;
use std::fs;
use std::path::{Path, PathBuf};

use compare::repository;
use generate::limits::{LAST_HORIZON, MOST_NODES, RECORD_BYTES};
use generate::shared::{four_buffers, toggled};
use generate::sheets::*;
use generate::{by_hand, runs_by_hand, Generator};
use plain::{sentence, worked_run, Answer, Edition, Sheet, HIGH, LOW};

use crate::cloned::example;
use crate::compiled::Program;
use crate::ended::Ended;

/// The records that it has room for at first.
const FIRST_ROOM: usize = 6_000;

/// How it ends after a run that has finished.
const FINISHED: Option<i32> = Some(0);
/// How it ends after a refusal.
const REFUSED: Option<i32> = Some(1);
/// How it ends after wrong use or a failure.
const FAILED: Option<i32> = Some(2);

fn run_sheet(words: &[&str]) -> Ended {
    let words: Vec<String> = words.iter().map(|&word| word.into()).collect();
    example("run_sheet").ended(&words, &[])
}

/// A file of this name and these bytes.
fn file(name: &str, bytes: &[u8]) -> String {
    let folder = Path::new(env!("CARGO_TARGET_TMPDIR")).join("c_sheets");
    fs::create_dir_all(&folder).expect("there is room");
    let path = folder.join(name);
    fs::write(&path, bytes).expect("there is room");
    path.to_str().expect("it is text").to_string()
}

/// What is to be printed of a run that has finished, as the plain simulator has it.
fn text(answer: Answer, listing: &[u8]) -> String {
    let [_, _, count] = answer.triple();
    let mut text = sentence(answer) + "\n";
    for (tick, node, value, end) in records(&listing[..count as usize * RECORD_BYTES]) {
        let letter = ['0', '1', 'X', 'Z'][usize::from(value)];
        text += &format!("{tick} {node} {letter} {end}\n");
    }
    text
}

/// How it is to end after this answer.
fn expected(answer: Answer, listing: &[u8]) -> Ended {
    match answer {
        Answer::Ran { .. } => Ended {
            status: FINISHED,
            output: text(answer, listing),
            error: String::new(),
        },
        Answer::Refused { .. } => Ended {
            status: REFUSED,
            output: String::new(),
            error: sentence(answer) + "\n",
        },
    }
}

/// Asserts that it ends as the plain simulator has it, which is lent room for so many records, and gives the
/// answer's number.
fn ran(name: &str, edition: Edition, sheet: &[u8], horizon: u32, room: usize) -> u32 {
    let mut listing = vec![0; room * RECORD_BYTES];
    let answer = plain::run(edition, sheet, horizon, &mut listing);
    let edition = match edition {
        Edition::First => "1",
        Edition::Second => "2",
    };
    let ended = run_sheet(&[&file(name, sheet), &horizon.to_string(), edition]);
    // Whole listings are too long to be shown.
    assert!(
        ended == expected(answer, &listing),
        "{name}: {:?} {}",
        ended.status,
        ended.error
    );
    answer.triple()[0]
}

#[test]
fn the_worked_run() {
    let first = &*file("worked", worked_run::SHEET);
    let second = worked_run::sheet().encode(Edition::Second);
    let second = &*file("worked_2", &second);
    for words in [
        &[first, "12"][..],
        &[first, "12", "1"],
        &[second, "0012", "2"],
    ] {
        assert_eq!(run_sheet(words).printed(), worked_run::PRINTED);
    }
}

/// As the source shows it.
#[test]
fn a_sheet_at_standard_input() {
    let input = fs::read(repository().join("crates/simulate/stdin")).expect("it is there");
    let words = ["/dev/stdin", "12"].map(String::from);
    let printed = example("run_sheet").printed(&words, &input[4..]);
    assert_eq!(printed, worked_run::PRINTED);
}

#[test]
fn sheets_of_the_second_edition() {
    for case in runs_by_hand::cases() {
        let sheet = case.sheet.encode(Edition::Second);
        let horizon = case.horizon;
        let number = ran("three_inputs", Edition::Second, &sheet, horizon, FIRST_ROOM);
        assert_eq!(number, 0, "{}", case.name);
    }
}

/// Every refusal that a run can have but 19: the sentence at standard error, and no record.
#[test]
fn refusals() {
    let mut met = BTreeSet::new();
    for case in by_hand::cases() {
        met.insert(ran("by_hand", case.edition, &case.sheet, 12, FIRST_ROOM));
    }
    let sheet = worked_run::SHEET;
    for horizon in [0, LAST_HORIZON + 1, u32::MAX] {
        met.insert(ran("horizon", Edition::First, sheet, horizon, FIRST_ROOM));
    }
    let mut modules = four_buffers();
    modules.push(constant(HIGH, 5, 5_000));
    let crowded = toggled(&modules).encode(Edition::First);
    met.insert(ran("crowded", Edition::First, &crowded, 10_000, FIRST_ROOM));
    let numbers = (0..=20).filter(|number| ![9, 15, 19].contains(number));
    assert_eq!(met, numbers.collect());
}

/// A sheet of the other edition, and files that are longer than any sheet.
#[test]
fn files_of_other_bytes() {
    let other = ran("other", Edition::Second, worked_run::SHEET, 12, FIRST_ROOM);
    assert_ne!(other, 0);
    for edition in Edition::ALL {
        let mut sheet = Generator::of(edition, 4).longest().encode(edition);
        let ran = |sheet: &[u8]| ran("longest", edition, sheet, 20, FIRST_ROOM);
        assert_eq!(ran(&sheet), 0);
        for more in [1, 9, 90_000] {
            sheet.resize(sheet.len() + more, 0);
            assert_eq!(ran(&sheet), 17);
        }
    }
}

/// So many inverters, each onto its own input: a record for each of them and each tick.
fn inverters(count: usize) -> Sheet {
    let nodes: Vec<u8> = (0..=u8::MAX).take(count).collect();
    let modules: Vec<_> = nodes
        .iter()
        .map(|&node| gate(INVERTER, [node], node, 1))
        .collect();
    sheet(&vec![LOW; count], &modules, &[], &nodes)
}

/// Listings that fill the first room, that need one record more, and much more.
#[test]
fn listings_that_need_more_room() {
    let ring = inverters(1).encode(Edition::First);
    for ticks in [FIRST_ROOM, FIRST_ROOM + 1, 2 * FIRST_ROOM + 1, 100_000] {
        assert_eq!(ran("ring", Edition::First, &ring, ticks as u32, ticks), 0);
    }
}

/// A record for each node that there can be and each tick: the last room is filled by them.
#[test]
fn the_longest_listing() {
    let sheet = inverters(MOST_NODES).encode(Edition::First);
    let room = MOST_NODES * 1_000;
    let number = ran("longest_listing", Edition::First, &sheet, 1_000, room);
    assert_eq!(number, 0);
}

/// Asserts that nothing is printed but one line, which begins so.
fn failed(ended: Ended, begins: &str) {
    assert_eq!((ended.status, &*ended.output), (FAILED, ""), "{begins}");
    assert!(ended.error.starts_with(begins), "{}", ended.error);
    assert_eq!(ended.error.lines().count(), 1, "{}", ended.error);
}

#[test]
fn wrong_use() {
    let sheet = &*file("wrong_use", worked_run::SHEET);
    for words in [&[][..], &[sheet], &[sheet, "12", "1", "1"]] {
        failed(run_sheet(words), "usage: run_sheet SHEET HORIZON [EDITION]");
    }
    for horizon in [
        "",
        "soon",
        "12s",
        " 12",
        "+12",
        "-12",
        "0x12",
        "4294967296",
        "18446744073709551628",
    ] {
        let named = format!("run_sheet: {horizon}: the horizon is");
        failed(run_sheet(&[sheet, horizon]), &named);
    }
    for edition in ["", "0", "3", "12", "second"] {
        let named = format!("run_sheet: {edition}: the edition is");
        failed(run_sheet(&[sheet, "12", edition]), &named);
    }
}

#[test]
fn files_that_cannot_be_read() {
    let folder = env!("CARGO_TARGET_TMPDIR");
    for file in [&format!("{folder}/no_such.sheet"), folder, ""] {
        let named = format!("run_sheet: {file}: ");
        failed(run_sheet(&[file, "12"]), &named);
    }
}

/// It, started by the shell's words, which name it and its arguments "$0" and "$@".
fn by_shell(start: &str, words: &[&str]) -> Ended {
    let program = example("run_sheet").path;
    let program = program.to_str().expect("it is text");
    let words: Vec<String> = [&["-c", start, program], words]
        .concat()
        .into_iter()
        .map(String::from)
        .collect();
    let path = PathBuf::from("sh");
    Program { path }.ended(&words, &[])
}

#[test]
fn an_output_that_takes_nothing() {
    let full = r#"exec "$0" "$@" > /dev/full"#;
    let ring = file("full", &inverters(1).encode(Edition::First));
    for horizon in ["12", "100000"] {
        let ended = by_shell(full, &[&ring, horizon]);
        failed(ended, "standard output did not take the whole text");
    }
}

/// 16 MiB in all, of which the last listing would need 15.
#[test]
fn no_memory() {
    let limited = r#"ulimit -v 16384; exec "$0" "$@""#;
    let ring = file("no_memory", &inverters(1).encode(Edition::First));
    let ended = by_shell(limited, &[&ring, &LAST_HORIZON.to_string()]);
    failed(ended, "run_sheet: the listing: ");
    let ended = by_shell(limited, &[&ring, "100000"]);
    assert_eq!(ended.status, FINISHED, "{}", ended.error);
}

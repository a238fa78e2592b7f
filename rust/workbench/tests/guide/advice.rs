//! What the page says to do about a refusal is enough: for each that a card written as text can meet, a card or a
//! command that is refused, and the same after the advice.

use std::fs;
use std::path::Path;

use crate::commands::{folder, timing};
use crate::page::{repository, text};
use crate::refusals::number;

/// A card, and what is asked of it, without its file's name.
type Call<'a> = (&'a str, &'a str);

/// A refusal, a call that meets it, and one that follows the advice.
type Case<'a> = (u32, Call<'a>, Call<'a>);

fn example(name: &str) -> String {
    fs::read_to_string(repository().join("examples").join(name)).expect("it is there")
}

/// What is answered to a call.
fn answer(folder: &Path, (card, asked): Call) -> Option<u32> {
    fs::write(folder.join("card.net"), card).unwrap();
    let arguments: Vec<&str> = asked.split(' ').chain(["card.net"]).collect();
    let ran = timing(folder, &arguments);
    let number = number(&ran.printed);
    assert_eq!(
        ran.status,
        Some(i32::from(number.is_some())),
        "{asked}: {}",
        ran.printed
    );
    number
}

/// A card of the lines.
fn card(lines: &str) -> String {
    format!("timing-1\n{lines}\n")
}

const CHECK: &str = "check";

#[test]
fn advice_is_enough() {
    let worked = example("worked.net");
    let too_long = example("too-long.net");
    let shared = too_long.replace(
        "trough = buffer(scoop) delay 10001 initial 0",
        "before = buffer(scoop) delay 1 initial 0\ntrough = buffer(before) delay 10000 initial 0",
    );
    let marked = card("input a\ninput b\nb = buffer(a) delay 1");
    let declared = card("input a\nb = buffer(a) delay 1 initial 0");
    let undriven = card("node a initial 0");
    let input = card("input a");
    let late = card("input a\ndrive a: 0 at 0, 1 at 1000000");
    let in_time = card("input a\ndrive a: 0 at 0, 1 at 999999");
    let wrong_node = card("input a\nb = buffer(a) delay 1 initial 0\ndrive b: 0 at 0");
    let right_node = card("input a\nb = buffer(a) delay 1 initial 0\ndrive a: 0 at 0");
    let [no_event, event] = [card("input a"), card("input a\ndrive a: X at 0")];
    let [in_loop, mended] = ["loop.net", "mended.net"].map(example);
    let crowded = example("crowded.net");
    let shorter = crowded.replace("delay 10000", "delay 4000");
    let choice = example("choice.net");
    let of_two = choice.replace(
        "scoop = multiplexer(left, right, choice) delay 1 initial X",
        "not = inverter(choice) delay 0 initial X\n\
         first = and(left, not) delay 0 initial X\n\
         second = and(right, choice) delay 0 initial X\n\
         scoop = or(first, second) delay 1 initial X",
    );
    let convert = "convert --to 1 -o card.sheet";
    let long_run = "run --horizon 20000";
    let cases: Vec<Case> = vec![
        (
            1,
            (&worked, "run --horizon 0"),
            (&worked, "run --horizon 1"),
        ),
        (
            1,
            (&worked, "run --horizon 1000001"),
            (&worked, "run --horizon 1000000"),
        ),
        (8, (&too_long, CHECK), (&shared, CHECK)),
        (10, (&marked, CHECK), (&declared, CHECK)),
        (10, (&undriven, CHECK), (&input, CHECK)),
        (11, (&late, CHECK), (&in_time, CHECK)),
        (12, (&wrong_node, CHECK), (&right_node, CHECK)),
        (
            15,
            (&no_event, "check --strict"),
            (&event, "check --strict"),
        ),
        (
            15,
            (&no_event, "check --strict"),
            (&no_event, "run --horizon 9"),
        ),
        (18, (&in_loop, CHECK), (&mended, CHECK)),
        (20, (&crowded, long_run), (&shorter, long_run)),
        (20, (&crowded, long_run), (&crowded, "run --horizon 10000")),
        (22, (&choice, convert), (&of_two, convert)),
        (
            24,
            (&worked, "pulses --horizon 12 --width 0"),
            (&worked, "pulses --horizon 12 --width 5"),
        ),
        (
            26,
            (&worked, "load --seed 7 --count 1024 -o a"),
            (&worked, "load --seed 7 --count 1023 -o a"),
        ),
    ];
    let folder = folder("advice");
    for &(number, refused, mended) in &cases {
        assert_eq!(answer(&folder, refused), Some(number), "{refused:?}");
        assert_eq!(answer(&folder, mended), None, "{number}: {mended:?}");
    }
    let mut numbers: Vec<u32> = cases.iter().map(|&(number, ..)| number).collect();
    numbers.dedup();
    assert_eq!(numbers, met_by_texts());
}

/// The refusals that the page says a text can meet.
fn met_by_texts() -> Vec<u32> {
    let text = text();
    let (_, rest) = text
        .split_once("A text can meet ")
        .expect("the page says it");
    let (said, _) = rest.split_once('.').expect("it is a sentence");
    let words = said.split(|c: char| !c.is_ascii_digit());
    words.filter_map(|word| word.parse().ok()).collect()
}

//! Document 02, W-203, by the library: an input without an event at tick 0 is X until its first
//! event, as if it had an event of X there.

use generate::limits::MOST_EVENTS;
use generate::shared::{unknown_at_first, UNKNOWN_AT_FIRST};
use generate::sheets::event;
use generate::{room_for_all, starts_of, Generator, Start};
use plain::{read, Edition, Sheet, UNKNOWN};

use crate::agreed::{listed, proved};

#[test]
fn a_run_worked_out_by_hand() {
    let sheet = unknown_at_first();
    assert_eq!(listed(&sheet, 6, "worked out by hand"), UNKNOWN_AT_FIRST);
    for edition in Edition::ALL {
        let bytes = sheet.encode(edition);
        assert_eq!(compare::check(edition, &bytes), [0, 0, 0]);
        assert_eq!(compare::check_strict(edition, &bytes), [15, 0, 0]);
    }
}

/// The sheet with an event of X at tick 0 for each input that has none, if there is room.
fn with_events_of_x(sheet: &Sheet) -> Option<Sheet> {
    let mut whole = sheet.clone();
    let late = sheet.inputs().zip(starts_of(sheet));
    let late = late.filter(|&(_, start)| start != Start::AtOnce);
    whole
        .drive
        .extend(late.map(|(node, _)| event(0, node, UNKNOWN)));
    whole
        .drive
        .sort_unstable_by_key(|event| (event.tick, event.node));
    let grown = whole.drive.len() > sheet.drive.len();
    (grown && whole.drive.len() <= MOST_EVENTS).then_some(whole)
}

/// Both sheets run to the same answer and listing, whatever the horizon and the buffer. A strict
/// check refuses the one and accepts the other.
fn as_if_it_had_one(edition: Edition) {
    let seed = 38;
    let mut generator = Generator::of(edition, seed);
    let mut sheets = 0;
    for _ in 0..20_000 {
        let input = generator.run_input();
        let whole = read(edition, &input.sheet).ok();
        let Some(whole) = whole.and_then(|sheet| with_events_of_x(&sheet)) else {
            continue;
        };
        let whole = whole.encode(edition);
        let all = room_for_all(edition, &whole, input.horizon);
        for length in [all, generator.buffer_length().min(all)] {
            let run = |sheet: &[u8]| proved(edition, sheet, input.horizon, length, "events of X");
            assert!(
                run(&input.sheet) == run(&whole),
                "{edition:?}, seed {seed}, sheet {sheets}"
            );
        }
        assert_eq!(compare::check_strict(edition, &input.sheet)[0], 15);
        assert_eq!(compare::check_strict(edition, &whole), [0, 0, 0]);
        sheets += 1;
    }
    println!("{edition:?}: {sheets} sheets");
    assert!(sheets >= 3_000, "{sheets} sheets");
}

#[test]
fn as_if_it_had_an_event_of_x() {
    Edition::ALL.into_iter().for_each(as_if_it_had_one);
}

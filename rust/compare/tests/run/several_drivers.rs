//! Document 02, W-209, by the library: runs of sheets with several drivers a node.

use generate::drivers::has_several_drivers;
use generate::every::{joined, joins, Joins, PAIRS, TRIPLES};
use generate::limits::RECORD_BYTES;
use generate::sheets::*;
use generate::{drivers_by_hand, room_for_all, Generator, Size};
use plain::{renumbered, Edition, Module, Sheet, HIGH, INPUT, LOW, NONE, UNKNOWN};

use crate::agreed::{agreed, listed, listed_by_hand, proved};

#[test]
fn worked_out_by_hand() {
    let cases = drivers_by_hand::cases();
    cases.iter().for_each(listed_by_hand);
    assert!(cases.len() >= 20, "{} cases", cases.len());
}

/// What a node's records say of a tick.
fn value_at(records: &[Record], tick: u32) -> u8 {
    let at = |record: &&Record| (record.0..record.3).contains(&tick);
    records.iter().find(at).expect("every tick has a value").2
}

/// What a node has of the values that its drivers say, two or three of them, whatever their delays.
fn every_value<const N: usize>(delays: [u16; N]) {
    let Joins {
        sheet,
        horizon,
        values,
    } = joins(delays);
    let records = listed(&sheet, horizon, "every value");
    assert_eq!(values.len(), 4_usize.pow(N as u32));
    for (tick, said) in values {
        let value = value_at(&records, tick);
        assert_eq!(value, joined(said), "{said:?} after {delays:?}");
    }
}

#[test]
fn every_pair_and_triple_of_values() {
    PAIRS.into_iter().for_each(every_value);
    TRIPLES.into_iter().for_each(every_value);
    every_value([0, 0, 1, 2]);
}

/// A sheet's records, in whichever order its modules are listed. With the nodes numbered backwards they are
/// the same but for the numbers.
fn listed_in_any_order(sheet: &Sheet, horizon: u32) -> Vec<Record> {
    let first = listed(sheet, horizon, "as listed");
    let as_numbered: Vec<u8> = sheet.node_numbers().collect();
    let backwards: Vec<u8> = as_numbered.iter().rev().copied().collect();
    for to in [as_numbered, backwards] {
        let number = |&(tick, node, value, end): &Record| (tick, to[usize::from(node)], value, end);
        let mut expected: Vec<Record> = first.iter().map(number).collect();
        expected.sort_unstable();
        let mut order: Vec<usize> = (0..sheet.modules.len()).collect();
        for _ in 0..sheet.modules.len() {
            order.rotate_left(1);
            let other = renumbered(sheet, &to, &order);
            assert_eq!(listed(&other, horizon, "rotated"), expected, "{order:?}");
        }
        order.reverse();
        let other = renumbered(sheet, &to, &order);
        assert_eq!(listed(&other, horizon, "reversed"), expected);
    }
    first
}

/// A chain without delay over three nodes of two drivers each, the last one listed first, and a memory after
/// it: whoever reads a node before both its drivers have settled sees what passes.
#[test]
fn a_chain_of_buses_without_delay() {
    let clocked = |data, clock, output| gate(CLOCKED_INVERTER, [data, clock], output, 0);
    let modules = [
        clocked(5, 0, 6),
        clocked(5, 1, 6),
        clocked(4, 0, 5),
        clocked(4, 1, 5),
        clocked(3, 0, 4),
        clocked(2, 1, 4),
        memory(0b0011, [6, 6], 7, 0),
    ];
    let mut nodes = [INPUT; 8];
    nodes[4..].fill(UNKNOWN);
    let drive = [
        (0, 0, HIGH),
        (0, 1, LOW),
        (0, 2, LOW),
        (0, 3, LOW),
        (3, 0, LOW),
        (3, 1, HIGH),
        (5, 2, HIGH),
        (8, 0, HIGH),
        (8, 1, LOW),
        (9, 1, HIGH),
        (11, 0, LOW),
        (13, 1, LOW),
    ];
    let sheet = sheet(&nodes, &modules, &drive, &[4, 5, 6, 7]);
    // Of nodes 4, 5 and 6 each is the inverse of the one before. At tick 9 both clocks are high.
    let expected = [
        (0, 4, 1, 5),
        (0, 5, 0, 5),
        (0, 6, 1, 5),
        (0, 7, 1, 5),
        (5, 4, 0, 8),
        (5, 5, 1, 8),
        (5, 6, 0, 8),
        (5, 7, 0, 8),
        (8, 4, 1, 9),
        (8, 5, 0, 9),
        (8, 6, 1, 9),
        (8, 7, 1, 11),
        (9, 4, 2, 11),
        (9, 5, 2, 11),
        (9, 6, 2, 11),
        (11, 4, 0, 13),
        (11, 5, 1, 13),
        (11, 6, 0, 13),
        (11, 7, 0, 15),
        (13, 4, 3, 15),
        (13, 5, 3, 15),
        (13, 6, 3, 15),
    ];
    assert_eq!(listed_in_any_order(&sheet, 15), expected);
}

/// The sheet with Z said once more to some of its driven nodes, by a constant and at once.
fn with_z(sheet: &Sheet) -> Sheet {
    let mut sheet = sheet.clone();
    let room = 256 - sheet.modules.len();
    let outputs: Vec<u8> = sheet.modules.iter().map(|module| module.output).collect();
    for output in outputs.into_iter().take(room) {
        let place = sheet.modules.len() / 2;
        sheet.modules.insert(place, constant(NONE, output, 0));
    }
    sheet
}

/// The sheet with each of its modules listed twice, one after the other.
fn doubled(sheet: &Sheet) -> Option<Sheet> {
    let twice = |&module: &Module| [module; 2];
    let modules: Vec<Module> = sheet.modules.iter().flat_map(twice).collect();
    let fits = modules.len() <= 256;
    fits.then(|| Sheet {
        modules,
        ..sheet.clone()
    })
}

/// Z is neutral and equal values stay: a constant Z without delay beside the other drivers changes nothing,
/// and neither does a record that is there already.
#[test]
fn what_changes_nothing() {
    let seed = 74;
    for edition in Edition::ALL {
        let mut generator = Generator::of(edition, seed);
        let [mut lively, mut shared] = [0; 2];
        for place in 0..3_000 {
            let given = match place % 2 {
                0 => generator.lively(Size::Small),
                _ => generator.several_drivers(Size::Small),
            };
            let horizon = 60;
            let whence = format!("{edition:?}, seed {seed}, sheet {place}");
            let run = |sheet: &Sheet| {
                let bytes = sheet.encode(edition);
                let room = room_for_all(edition, &bytes, horizon);
                proved(edition, &bytes, horizon, room, &whence)
            };
            let outcome = run(&given);
            assert_eq!(outcome.answer[0], 0, "{whence}");
            assert!(run(&with_z(&given)) == outcome, "Z, {whence}: {given:?}");
            if let Some(doubled) = doubled(&given) {
                assert!(run(&doubled) == outcome, "doubled, {whence}: {given:?}");
            }
            lively += usize::from(outcome.listing.len() > RECORD_BYTES * given.watched.len());
            shared += usize::from(has_several_drivers(&given));
        }
        println!("{edition:?}: {lively} sheets list changes, {shared} had several drivers");
        assert!(lively >= 1_000 && shared >= 1_000, "{lively}, {shared}");
    }
}

/// An oscillator, node 0, that changes at every tick, and so many buffers and inverters of one delay after it,
/// all of which drive node 1.
fn after_an_oscillator(buffers: usize, inverters: usize, delay: u16) -> Sheet {
    let drivers = |kind, count| vec![gate(kind, [0], 1, delay); count];
    let modules = [
        vec![gate(INVERTER, [0], 0, 1)],
        drivers(BUFFER, buffers),
        drivers(INVERTER, inverters),
    ];
    sheet(&[LOW, UNKNOWN], &modules.concat(), &[], &[1])
}

/// As many changes are pending as all drivers have, whatever the node shows, and one of the oscillator: 255
/// times 16 are fewer than 4,096, and 15 times 273 just as many with that one. After the last tick before
/// their delay all that they have are pending.
#[test]
fn pending_on_one_node() {
    let answer = |buffers, inverters, delay, horizon| {
        let sheet = after_an_oscillator(buffers, inverters, delay);
        let answers = Edition::ALL.map(|edition| {
            let bytes = sheet.encode(edition);
            let room = room_for_all(edition, &bytes, horizon);
            agreed(edition, &bytes, horizon, room, "one node").answer
        });
        assert_eq!(answers[0], answers[1]);
        answers[0]
    };
    // With drivers that clash the node stays X from tick 0 on.
    assert_eq!(answer(128, 127, 16, 100), [0, 0, 1]);
    assert_eq!(answer(128, 127, 17, 100), [20, 16, 1]);
    assert_eq!(answer(7, 8, 273, 900), [0, 0, 1]);
    assert_eq!(answer(7, 8, 274, 900), [20, 273, 1]);
    // With drivers that agree it changes at every tick from their delay on.
    assert_eq!(answer(255, 0, 16, 100), [0, 0, 85]);
    assert_eq!(answer(255, 0, 17, 100), [20, 16, 1]);
    assert_eq!(answer(0, 15, 273, 900), [0, 0, 628]);
    assert_eq!(answer(0, 15, 274, 900), [20, 273, 1]);
}

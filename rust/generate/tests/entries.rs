//! Lively sheets look at every entry of every gate's table, those of values that are not known
//! included.

use generate::every::gate_kinds;
use generate::sheets::{gate, MULTIPLEXER};
use generate::{Generator, Size};
use plain::{Edition, Module, Sheet, UNKNOWN};

const HORIZON: u32 = 60;

/// By kind and by the values of its used inputs, of which the first counts most.
type Entries = [[u32; 64]; 16];

/// Counts the entries that the gates of a sheet look at so early that their outputs show it.
fn add(met: &mut Entries, kinds: &[u8], sheet: &Sheet) {
    let cells = plain::cells(sheet, HORIZON);
    let is_gate = |module: &&Module| kinds.contains(&module.kind);
    for gate in sheet.modules.iter().filter(is_gate) {
        let shown = HORIZON.saturating_sub(gate.delay.into()) as usize;
        for entry in (0..shown).map(|tick| entry_at(gate, &cells, tick)) {
            met[usize::from(gate.kind)][entry] += 1;
        }
    }
}

/// The entry that a gate looks at.
fn entry_at(gate: &Module, cells: &[Vec<u8>], tick: usize) -> usize {
    let values = gate
        .used_inputs()
        .map(|node| cells[usize::from(node)][tick]);
    values.fold(0, |entry, value| 4 * entry + usize::from(value))
}

/// Every entry is met at least so often in so many sheets.
fn every_entry(edition: Edition, sheets: usize, least: u32) -> Entries {
    let mut generator = Generator::of(edition, 34);
    let kinds = gate_kinds(edition);
    let mut met = [[0; 64]; 16];
    for _ in 0..sheets {
        add(&mut met, &kinds, &generator.lively(Size::Small));
    }
    for kind in kinds {
        let used = gate(kind, [], 0, 0).input_count();
        let entries = &met[usize::from(kind)][..4_usize.pow(used as u32)];
        println!("{edition:?}, kind {kind}: {entries:?}");
        assert!(entries.iter().all(|&entry| entry >= least), "kind {kind}");
    }
    met
}

#[test]
fn every_entry_is_met() {
    every_entry(Edition::First, 2_000, 100);
}

/// Of a triple with an X or Z in it there are few.
#[test]
fn every_entry_of_three_inputs_is_met() {
    let met = every_entry(Edition::Second, 40_000, 100);
    let multiplexer = met[usize::from(MULTIPLEXER)].iter().enumerate();
    let third_unknown = multiplexer.filter(|(entry, _)| entry % 4 == usize::from(UNKNOWN));
    let seen: u32 = third_unknown.map(|(_, seen)| seen).sum();
    println!("multiplexers saw a third input of X {seen} times");
    assert!(seen >= 10_000, "{seen}");
}

//! The workloads run, and as much happens in them as they say.

use bench::same;
use bench::timed::{self, Timed};
use bench::workload::{self, Workload};
use generate::sheets::{CLOCKED_INVERTER, MEMORY};
use plain::{timelines, Edition, Sheet, NONE};

const HORIZON: u32 = 2_000;

/// The changes of all nodes per tick, rounded.
fn changes_per_tick(sheet: &Sheet) -> usize {
    let of_node = |cells: &Vec<u8>| cells.windows(2).filter(|pair| pair[0] != pair[1]).count();
    let changes: usize = plain::cells(sheet, HORIZON).iter().map(of_node).sum();
    let ticks = HORIZON as usize;
    (changes + ticks / 2) / ticks
}

fn sheet(name: &str) -> Sheet {
    let mut all = workload::all().into_iter();
    let named = all.find(|workload| workload.name.starts_with(name));
    named.expect("the workload is there").sheet
}

#[test]
fn all_run_and_list_changes() {
    let all = workload::all();
    assert_eq!(all.len(), 7);
    for workload in all {
        let Workload {
            name,
            edition,
            sheet,
        } = workload;
        let horizon = 40_000;
        let Timed { records, .. } = timed::run(same::run, 1, edition, &sheet, horizon);
        let plain = timed::run(timed::plain, 1, edition, &sheet, horizon);
        assert_eq!(records, plain.records, "{name}");
        let changes = records.iter().filter(|&&(tick, ..)| tick > 0);
        assert!(changes.count() > 0, "{name}");
    }
}

#[test]
fn all_of_one_ring_toggle_and_one_change_travels_in_the_other() {
    assert_eq!(changes_per_tick(&sheet("ring of 253")), 253);
    assert_eq!(changes_per_tick(&sheet("ring of 255")), 1);
}

#[test]
fn the_gates_stay_lively() {
    for name in ["255 random gates", "255 gates of three inputs"] {
        let gates = sheet(name);
        assert_eq!(gates.modules.len(), 255);
        assert!(changes_per_tick(&gates) > 10, "{name}");
    }
}

/// No tick is refused, and the watched nodes still change at the end.
#[test]
fn the_gates_of_three_inputs_last() {
    let gates = sheet("255 gates of three inputs");
    assert!(gates.modules.iter().all(|module| module.kind > MEMORY));
    let horizon = 200_000;
    let Timed { records, .. } = timed::run(same::run, 1, Edition::Second, &gates, horizon);
    let last = records
        .iter()
        .filter(|&&(tick, ..)| tick >= horizon - 1_000);
    assert!(last.count() > 100);
}

#[test]
fn the_chain_follows_its_oscillator() {
    let chain = sheet("zero-delay chain");
    let without_delay = chain.modules.iter().filter(|module| module.delay == 0);
    assert_eq!(without_delay.count(), 128);
    // All 129 nodes change at every seventh tick.
    assert_eq!(changes_per_tick(&chain), (129 + 3) / 7);
}

#[test]
fn little_happens_in_the_sparse_sheet() {
    assert_eq!(changes_per_tick(&sheet("sparse")), 0);
}

/// The ticks at which none of a bus's drivers, one and several say something.
fn drivers_on(sheet: &Sheet, bus: u8) -> [usize; 3] {
    let contributions = timelines(sheet, HORIZON).contributions;
    let mut on = vec![0; HORIZON as usize];
    for driver in sheet.drivers(bus) {
        for (on, &given) in on.iter_mut().zip(&contributions[driver]) {
            *on += usize::from(given != NONE);
        }
    }
    let mut ticks = [0; 3];
    on.into_iter().for_each(|on| ticks[on.min(2)] += 1);
    ticks
}

/// Each bus has 16 drivers, of which mostly one is on, and changes at least at every sixth tick.
#[test]
fn the_buses_are_driven_in_turn() {
    let buses = sheet("8 buses");
    let cells = timelines(&buses, HORIZON).cells;
    for bus in 0..8 {
        let drivers = buses.drivers(bus).map(|place| buses.modules[place]);
        let delays = if bus < 4 { 0..=0 } else { 1..=5 };
        let is_driver = |m: plain::Module| m.kind == CLOCKED_INVERTER && delays.contains(&m.delay);
        assert_eq!(drivers.filter(|&module| is_driver(module)).count(), 16);
        let [none, one, several] = drivers_on(&buses, bus);
        println!("bus {bus}: none is on at {none} ticks, one at {one}, several at {several}");
        assert!(10 * one > 8 * HORIZON as usize, "bus {bus}: {one}");
        assert_eq!(none > 0 && several > 0, bus >= 4, "bus {bus}");
        let changes = cells[usize::from(bus)]
            .windows(2)
            .filter(|pair| pair[0] != pair[1]);
        assert!(6 * changes.count() > HORIZON as usize, "bus {bus}");
    }
    assert!(changes_per_tick(&buses) > 10);
}

/// No tick is refused, and the buses still change at the end.
#[test]
fn the_buses_last() {
    let horizon = 200_000;
    let buses = sheet("8 buses");
    let Timed { records, .. } = timed::run(same::run, 1, Edition::First, &buses, horizon);
    let last = records
        .iter()
        .filter(|&&(tick, ..)| tick >= horizon - 1_000);
    assert!(last.count() > 300);
}

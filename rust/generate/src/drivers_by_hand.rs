//! Document 02's W-209: runs of sheets with several drivers a node whose records are worked out by hand.

use plain::{Module, Sheet, HIGH, INPUT, LOW, NONE, UNKNOWN};

use crate::ends_by_hand::{finished, Case};
use crate::limits::RECORD_BYTES;
use crate::runs_by_hand;
use crate::shared::toggled;
use crate::sheets::*;

/// Every edition has these sheets.
pub fn cases() -> Vec<Case> {
    [
        buses(),
        initial_values(),
        delays(),
        memories(),
        many_drivers(),
        crowds(),
    ]
    .into_iter()
    .flatten()
    .collect()
}

fn buses() -> Vec<Case> {
    vec![
        two_inverters(),
        handed_over(),
        read_without_delay(),
        onto_itself_in_turn(),
    ]
}

/// Data and clock of one inverter, of delay 2, are nodes 0 and 1, those of the other, of delay 3, nodes 2 and
/// 3. The bus is driven by neither, by one, by both alike, by both unlike, and by one whose clock is X.
pub(crate) fn two_inverters() -> Case {
    let modules = [
        gate(CLOCKED_INVERTER, [0, 1], 4, 2),
        gate(CLOCKED_INVERTER, [2, 3], 4, 3),
    ];
    let drive = [
        (0, 0, LOW),
        (0, 1, LOW),
        (0, 2, HIGH),
        (0, 3, LOW),
        (2, 1, HIGH),
        (5, 1, LOW),
        (6, 3, HIGH),
        (8, 2, LOW),
        (10, 1, HIGH),
        (11, 0, HIGH),
        (12, 3, LOW),
        (14, 1, UNKNOWN),
        (16, 1, LOW),
    ];
    let nodes = [INPUT, INPUT, INPUT, INPUT, NONE];
    let records = [
        (0, 4, 3, 4),
        (4, 4, 1, 7),
        (7, 4, 3, 9),
        (9, 4, 0, 11),
        (11, 4, 1, 13),
        (13, 4, 2, 15),
        (15, 4, 0, 16),
        (16, 4, 2, 18),
        (18, 4, 3, 20),
    ];
    let sheet = sheet(&nodes, &modules, &drive, &[4]);
    finished("a bus of two clocked inverters", sheet, 20, &records)
}

/// At tick 10 one inverter goes from 1 to Z and the other from Z to 1: the bus stays.
fn handed_over() -> Case {
    let modules = [
        gate(CLOCKED_INVERTER, [0, 1], 3, 2),
        gate(CLOCKED_INVERTER, [0, 2], 3, 5),
    ];
    let drive = [
        (0, 0, LOW),
        (0, 1, HIGH),
        (0, 2, LOW),
        (5, 2, HIGH),
        (8, 1, LOW),
        (9, 0, HIGH),
    ];
    let sheet = sheet(&[INPUT, INPUT, INPUT, NONE], &modules, &drive, &[3]);
    let records = [(0, 3, 3, 2), (2, 3, 1, 14), (14, 3, 0, 20)];
    finished("handed over at one tick", sheet, 20, &records)
}

/// A bus without delay that is handed over at tick 3. A memory, listed first, catches 0 and 1 from it, and a
/// buffer, listed between its drivers, follows it.
fn read_without_delay() -> Case {
    let modules = [
        memory(0b0011, [3, 3], 4, 0),
        gate(CLOCKED_INVERTER, [0, 1], 3, 0),
        gate(BUFFER, [3], 5, 0),
        gate(CLOCKED_INVERTER, [0, 2], 3, 0),
    ];
    let drive = [
        (0, 0, LOW),
        (0, 1, HIGH),
        (0, 2, LOW),
        (3, 1, LOW),
        (3, 2, HIGH),
        (5, 0, HIGH),
        (7, 2, UNKNOWN),
        (9, 2, LOW),
        (11, 1, HIGH),
    ];
    let nodes = [INPUT, INPUT, INPUT, NONE, UNKNOWN, UNKNOWN];
    let records = [
        (0, 3, 1, 5),
        (0, 4, 1, 5),
        (0, 5, 1, 5),
        (5, 3, 0, 7),
        (5, 4, 0, 14),
        (5, 5, 0, 7),
        (7, 3, 2, 9),
        (7, 5, 2, 11),
        (9, 3, 3, 11),
        (11, 3, 0, 14),
        (11, 5, 0, 14),
    ];
    let sheet = sheet(&nodes, &modules, &drive, &[3, 4, 5]);
    finished("a bus read without delay", sheet, 14, &records)
}

/// Two inverters of delay 1 read the bus that they drive, one after the other for four ticks, and then none
/// does.
fn onto_itself_in_turn() -> Case {
    let modules = [
        gate(CLOCKED_INVERTER, [2, 0], 2, 1),
        gate(CLOCKED_INVERTER, [2, 1], 2, 1),
    ];
    let drive = [
        (0, 0, HIGH),
        (0, 1, LOW),
        (4, 0, LOW),
        (4, 1, HIGH),
        (8, 1, LOW),
    ];
    let toggles = (0..9).map(|tick: u32| (tick, 2, u8::from(tick % 2 == 1), tick + 1));
    let mut records: Vec<Record> = toggles.collect();
    records.push((9, 2, 3, 12));
    let sheet = sheet(&[INPUT, INPUT, LOW], &modules, &drive, &[2]);
    finished("a bus that is inverted in turn", sheet, 12, &records)
}

/// Node 0 and its drivers, which read nothing or node 0 itself.
fn alone(initial: u8, drivers: &[Module]) -> Sheet {
    sheet(&[initial], drivers, &[], &[0])
}

/// Each driver says what the node begins with until its own delay has passed.
fn initial_values() -> Vec<Case> {
    let fixed = |name, initial, drivers: [(u8, u16); 2], horizon, records: &[Record]| {
        let modules = drivers.map(|(value, delay)| constant(value, 0, delay));
        finished(name, alone(initial, &modules), horizon, records)
    };
    vec![
        fixed(
            "low until the slower driver is there",
            LOW,
            [(HIGH, 3), (HIGH, 6)],
            9,
            &[(0, 0, 0, 3), (3, 0, 2, 6), (6, 0, 1, 9)],
        ),
        fixed(
            "high while one driver is Z already",
            HIGH,
            [(NONE, 2), (LOW, 5)],
            8,
            &[(0, 0, 1, 5), (5, 0, 0, 8)],
        ),
        fixed(
            "Z until one driver is there, the other Z at once",
            NONE,
            [(LOW, 4), (NONE, 0)],
            7,
            &[(0, 0, 3, 4), (4, 0, 0, 7)],
        ),
        fixed(
            "X against a driver without delay",
            UNKNOWN,
            [(HIGH, 0), (HIGH, 2)],
            5,
            &[(0, 0, 2, 2), (2, 0, 1, 5)],
        ),
        fixed(
            "never there below the horizon",
            HIGH,
            [(LOW, 9), (NONE, 0)],
            9,
            &[(0, 0, 1, 9)],
        ),
        finished(
            "a memory that has caught nothing",
            sheet(
                &[INPUT, LOW],
                &[memory(0, [0, 0], 1, 0), gate(BUFFER, [0], 1, 0)],
                &[(0, 0, LOW), (3, 0, HIGH)],
                &[1],
            ),
            6,
            &[(0, 1, 0, 3), (3, 1, 2, 6)],
        ),
    ]
}

/// Input 0, node 1 that begins with Z, and its drivers.
fn after_an_input(drivers: &[Module], drive: &[Change]) -> Sheet {
    sheet(&[INPUT, NONE], drivers, drive, &[1])
}

fn delays() -> Vec<Case> {
    let [low_high, pulse] = [
        &[(0, 0, LOW), (5, 0, HIGH)][..],
        &[(0, 0, LOW), (3, 0, HIGH), (5, 0, LOW)],
    ];
    vec![
        finished(
            "one driver without delay and one with",
            after_an_input(
                &[gate(BUFFER, [0], 1, 0), gate(INVERTER, [0], 1, 3)],
                low_high,
            ),
            12,
            &[(0, 1, 0, 3), (3, 1, 2, 5), (5, 1, 1, 8), (8, 1, 2, 12)],
        ),
        finished(
            "both change at one tick and still clash",
            after_an_input(&[gate(BUFFER, [0], 1, 3), gate(INVERTER, [0], 1, 3)], pulse),
            12,
            &[(0, 1, 3, 3), (3, 1, 2, 12)],
        ),
        finished(
            "two equal records",
            after_an_input(&[gate(BUFFER, [0], 1, 2); 2], pulse),
            10,
            &[(0, 1, 3, 2), (2, 1, 0, 5), (5, 1, 1, 7), (7, 1, 0, 10)],
        ),
        finished(
            "one change, seen at two delays",
            after_an_input(
                &[gate(BUFFER, [0], 1, 2), gate(BUFFER, [0], 1, 4)],
                low_high,
            ),
            12,
            &[(0, 1, 3, 2), (2, 1, 0, 7), (7, 1, 2, 9), (9, 1, 1, 12)],
        ),
        finished(
            "two inverters onto their own input",
            alone(LOW, &[gate(INVERTER, [0], 0, 1), gate(INVERTER, [0], 0, 2)]),
            6,
            &[(0, 0, 0, 1), (1, 0, 2, 6)],
        ),
    ]
}

/// A memory with this delay catches 1 at tick 0 and holds it. An inverter beside it says 0 at ticks 4 and 5 and
/// nothing otherwise: what the memory holds is its own contribution, and not the X that the node has then.
fn held(delay: u16) -> Sheet {
    let modules = [
        memory(0b0010, [0, 1], 3, delay),
        gate(CLOCKED_INVERTER, [0, 2], 3, 0),
    ];
    let drive = [
        (0, 0, HIGH),
        (0, 1, HIGH),
        (0, 2, LOW),
        (2, 1, LOW),
        (4, 2, HIGH),
        (6, 2, LOW),
    ];
    sheet(&[INPUT, INPUT, INPUT, NONE], &modules, &drive, &[3])
}

fn memories() -> Vec<Case> {
    vec![
        finished(
            "what a memory holds beside another driver",
            held(0),
            10,
            &[(0, 3, 1, 4), (4, 3, 2, 6), (6, 3, 1, 10)],
        ),
        finished(
            "what a delayed memory holds beside another driver",
            held(3),
            10,
            &[(0, 3, 3, 3), (3, 3, 1, 4), (4, 3, 2, 6), (6, 3, 1, 10)],
        ),
    ]
}

/// 256 drivers of one node: all but the one at this place are alike.
fn all_but_one(alike: Module, other: Module, place: usize) -> Vec<Module> {
    let mut modules = vec![alike; 256];
    modules[place] = other;
    modules
}

fn many_drivers() -> Vec<Case> {
    let follows = all_but_one(constant(NONE, 1, 0), gate(BUFFER, [0], 1, 1), 100);
    let clashes = all_but_one(gate(BUFFER, [0], 1, 0), gate(INVERTER, [0], 1, 0), 255);
    let pulled_up = all_but_one(
        constant(HIGH, 2, 0),
        gate(CLOCKED_INVERTER, [0, 1], 2, 0),
        0,
    );
    let clocked = [
        (0, 0, HIGH),
        (0, 1, LOW),
        (3, 1, HIGH),
        (5, 0, LOW),
        (7, 1, LOW),
    ];
    let alike = [gate(BUFFER, [0], 1, 1); 256];
    vec![
        finished(
            "256 drivers are all Z, all low, all high and all X",
            after_an_input(&alike, &[(0, 0, LOW), (3, 0, HIGH), (5, 0, NONE)]),
            8,
            &[(0, 1, 3, 1), (1, 1, 0, 4), (4, 1, 1, 6), (6, 1, 2, 8)],
        ),
        finished(
            "one of 256 drivers is not Z",
            after_an_input(&follows, &[(0, 0, HIGH), (4, 0, LOW)]),
            8,
            &[(0, 1, 3, 1), (1, 1, 1, 5), (5, 1, 0, 8)],
        ),
        finished(
            "one of 256 drivers says something else",
            after_an_input(&clashes, &[(0, 0, HIGH), (4, 0, LOW), (6, 0, NONE)]),
            8,
            &[(0, 1, 2, 8)],
        ),
        finished(
            "255 drivers say 1 and one mostly nothing",
            sheet(&[INPUT, INPUT, LOW], &pulled_up, &clocked, &[2]),
            10,
            &[(0, 2, 1, 3), (3, 2, 2, 5), (5, 2, 1, 10)],
        ),
    ]
}

/// Node 1, driven by these modules, which read the input that [`toggled`] drives. Both are watched.
fn toggled_bus(initial: u8, drivers: &[Module]) -> Sheet {
    Sheet {
        nodes: vec![INPUT, initial],
        watched: vec![0, 1],
        ..toggled(drivers)
    }
}

/// The input's records at the first ticks, each ending at the next tick, and node 1's value up to there.
fn first_ticks(ticks: u32, value: u8) -> Vec<Record> {
    let level = |tick: u32| u8::from(tick.is_multiple_of(2));
    let each_tick = (0..ticks).map(|tick| (tick, 0, level(tick), tick + 1));
    let mut records: Vec<Record> = each_tick.collect();
    records.insert(1, (0, 1, value, ticks));
    records
}

/// Changes are pending for each driver, whether or not the node shows them. Each of these has one at every
/// tick from 5,000 to 6,023.
fn crowds() -> Vec<Case> {
    let [follow, invert] = [BUFFER, INVERTER].map(|kind| gate(kind, [0], 1, 5_000));
    let clash = [follow, invert, follow, invert];
    let one_more = [&clash[..], &[constant(HIGH, 1, 5_000)]].concat();
    // The last record of the input, and node 1, X throughout, last to the horizon.
    let mut whole = first_ticks(1_024, UNKNOWN);
    whole[1].3 = 10_000;
    whole[1_024].3 = 10_000;
    let refused = |name, drivers: &[Module], initial, tick: u32| Case {
        name,
        sheet: toggled_bus(initial, drivers),
        horizon: 10_000,
        bytes: RECORD_BYTES * 6_000,
        answer: [20, tick, tick + 2],
        records: first_ticks(tick + 1, initial),
    };
    vec![
        finished(
            "4,096 pending on a node that stays X",
            toggled_bus(UNKNOWN, &clash),
            10_000,
            &whole,
        ),
        refused(
            "4,097 pending on a node that stays X",
            &one_more,
            UNKNOWN,
            1_023,
        ),
        // Five times 820 are 4,100.
        refused("five equal records", &[follow; 5], LOW, 819),
    ]
}

/// Document 02's W-205 as well: a multiplexer and a NAND of three inputs drive node 3.
pub fn of_three_inputs() -> runs_by_hand::Case {
    let modules = [
        gate(MULTIPLEXER, [0, 1, 2], 3, 1),
        gate(NAND_3, [0, 1, 2], 3, 2),
    ];
    let drive = [
        (0, 0, LOW),
        (0, 1, HIGH),
        (0, 2, LOW),
        (3, 2, HIGH),
        (6, 0, HIGH),
    ];
    runs_by_hand::Case {
        name: "gates of three inputs that drive one node",
        sheet: sheet(&[INPUT, INPUT, INPUT, NONE], &modules, &drive, &[3]),
        horizon: 11,
        records: vec![
            (0, 3, 3, 1),
            (1, 3, 0, 2),
            (2, 3, 2, 4),
            (4, 3, 1, 8),
            (8, 3, 2, 11),
        ],
    }
}

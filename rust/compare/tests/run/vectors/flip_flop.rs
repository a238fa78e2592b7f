//! Source document 003: the Flip-Flop of two NAND gates that take 3 time units each.
//!
//! "Q = Nand Set Qb, Qb = Nand Reset Q" (section 1.2), all wires undefined at first. The
//! document's value at time t is cell t: its `nand1` at time t reads its inputs at t - 3, and its
//! `nand2` puts X:X:X before what it computes.

use generate::ends::ended;
use generate::sheets::*;
use plain::{Sheet, INPUT, UNKNOWN};

use crate::agreed::listed;

const SET: u8 = 0;
const RESET: u8 = 1;
const Q: u8 = 2;
const QB: u8 = 3;

/// The Flip-Flop with events for Set and Reset.
fn flip_flop(drive: &[Change]) -> Sheet {
    let modules = [gate(NAND, [SET, QB], Q, 3), gate(NAND, [RESET, Q], QB, 3)];
    let nodes = [INPUT, INPUT, UNKNOWN, UNKNOWN];
    sheet(&nodes, &modules, drive, &[SET, RESET, Q, QB])
}

/// The value of a node at every tick below the horizon, in the document's letters.
fn letters(records: &[Record], node: u8, horizon: u32) -> String {
    let mut value = None;
    let ticks = 0..horizon;
    let letter = |tick| {
        let record = records.iter().find(|r| r.0 == tick && r.1 == node);
        value = record.map(|r| r.2).or(value);
        ['L', 'H', 'X', 'Z'][usize::from(value.expect("a record at tick 0"))]
    };
    ticks.map(letter).collect()
}

/// An event at tick 0 and one at each change of a wire that is given letter by letter.
fn events(node: u8, letters: &str) -> Vec<Change> {
    let value = |letter| u8::from(letter == 'H');
    let mut before = None;
    let mut events = Vec::new();
    for (tick, letter) in (0..).zip(letters.chars()) {
        if before.replace(letter) != Some(letter) {
            events.push((tick, node, value(letter)));
        }
    }
    events
}

/// Two wires' events together, in order.
fn both(set: &str, reset: &str) -> Vec<Change> {
    let mut events = [events(SET, set), events(RESET, reset)].concat();
    events.sort_unstable();
    events
}

/// Fig. 1.5, the two input lists:
/// "set = [L,L,L,L,L,L,L,H,H,H,H,H,H,H,H,H,H,H,H,H,H,H,H,H,H,H,H,H]" and
/// "reset= [H,H,H,H,H,H,H,H,H,H,H,H,H,H,L,L,L,L,L,L,L,H,H,H,H,H,H,H]".
const SET_LIST: &str = "LLLLLLLHHHHHHHHHHHHHHHHHHHHH";
const RESET_LIST: &str = "HHHHHHHHHHHHHHLLLLLLLHHHHHHH";

/// Section 1.4, what the program computes on them:
/// "q = [X,X,X,H,H,H,H,H,H,H,H,H,H,H,H,H,H,H,H,H,L,L,L,L,L,L,L,L,L,L,L]" and
/// "qb = [X,X,X,X,X,X,L,L,L,L,L,L,L,L,L,L,L,H,H,H,H,H,H,H,H,H,H,H,H,H,H]".
const Q_LIST: &str = "XXXHHHHHHHHHHHHHHHHHLLLLLLLLLLL";
const QB_LIST: &str = "XXXXXXLLLLLLLLLLLHHHHHHHHHHHHHH";

#[test]
fn the_lists_of_section_1_4() {
    // The lists q and qb are three longer than the inputs', whose last values stay here; what
    // they are then does not show before three ticks have passed.
    let horizon = 31;
    let records = listed(&flip_flop(&both(SET_LIST, RESET_LIST)), horizon, "lists");
    assert_eq!(letters(&records, SET, 28), SET_LIST);
    assert_eq!(letters(&records, RESET, 28), RESET_LIST);
    assert_eq!(letters(&records, Q, horizon), Q_LIST);
    assert_eq!(letters(&records, QB, horizon), QB_LIST);
}

/// Section 1.3's clock: "set t = L, if t mod 28 < 7; = H, otherwise" and "reset t = set (t+14)",
/// for t from 0 to 41.
fn clocks() -> [String; 2] {
    let set = |t: u32| if t % 28 < 7 { 'L' } else { 'H' };
    [(0..42).map(set).collect(), (14..56).map(set).collect()]
}

#[test]
fn the_demand_driven_values_of_section_1_3() {
    let [set, reset] = clocks();
    let records = listed(&flip_flop(&both(&set, &reset)), 42, "clocks");
    // "map q [0..27] = [X,X,X,H,H,H,H,H,H,H,H,H,H,H,H,H,H,H,H,H,L,L,..." and
    // "map qb [0..27] = [X,X,X,X,X,X,L,L,L,L,L,L,L,L,L,L,L,H,H,H,H,H,...".
    assert_eq!(letters(&records, Q, 22), "XXXHHHHHHHHHHHHHHHHHLL");
    assert_eq!(letters(&records, QB, 22), "XXXXXXLLLLLLLLLLLHHHHH");
    // "the value of set 37 (which is H) .. reset 34 (H) .. set 31, which is L; consequently q 34
    // equals H, qb 37 equals L, and q 40 thus equals H, which is the answer."
    let at = |node, tick: usize| letters(&records, node, 42).as_bytes()[tick];
    assert_eq!([at(SET, 37), at(RESET, 34), at(SET, 31)], *b"HHL");
    assert_eq!([at(Q, 34), at(QB, 37), at(Q, 40)], *b"HLH");
}

/// Section 1.5, the value of q as the discrete time simulator calculates it on the same inputs:
/// "q = [Until 3 X, Until 6 H, Until 9 H, Until 10 H, Until 12 H, Until 15 H, Until 16 H, Until 18
/// H, Until 20 H, Until 21 L, Until 22 L, Until 24 L, Until 26 L, Until 27 L, Until 28 L, Until 30
/// L, Until 31 L]". The wire has a value until a time, when it takes the next one.
const Q_UNTIL: [(usize, char); 17] = [
    (3, 'X'),
    (6, 'H'),
    (9, 'H'),
    (10, 'H'),
    (12, 'H'),
    (15, 'H'),
    (16, 'H'),
    (18, 'H'),
    (20, 'H'),
    (21, 'L'),
    (22, 'L'),
    (24, 'L'),
    (26, 'L'),
    (27, 'L'),
    (28, 'L'),
    (30, 'L'),
    (31, 'L'),
];

#[test]
fn the_tuples_of_section_1_5() {
    let mut q = String::new();
    for (until, letter) in Q_UNTIL {
        q.extend(std::iter::repeat_n(letter, until - q.len()));
    }
    let records = listed(&flip_flop(&both(SET_LIST, RESET_LIST)), 31, "tuples");
    assert_eq!(letters(&records, Q, 31), q);
}

/// Section 1.6, Fig. 1.7: "set = [ At 0 Set L, At 7 Set H, At 28 Set L ]" and
/// "reset = [ At 0 Reset H, At 14 Reset L, At 21 Reset H ]", merged.
const EVENTS: [Change; 6] = [
    (0, SET, 0),
    (0, RESET, 1),
    (7, SET, 1),
    (14, RESET, 0),
    (21, RESET, 1),
    (28, SET, 0),
];

/// Section 1.6, what the event driven simulator prints: "main = [At 0 Set L, At 0 Reset H, At 3 Q
/// H, At 6 Qb L, At 7 Set H, At 14 Reset L, At 17 Qb H, At 20 Q L, At 21 Reset H, At 28 Set L,
/// At 31 Q H, At 34 Qb L]".
const MAIN: [Change; 12] = [
    (0, SET, 0),
    (0, RESET, 1),
    (3, Q, 1),
    (6, QB, 0),
    (7, SET, 1),
    (14, RESET, 0),
    (17, QB, 1),
    (20, Q, 0),
    (21, RESET, 1),
    (28, SET, 0),
    (31, Q, 1),
    (34, QB, 0),
];

#[test]
fn the_events_of_section_1_6() {
    let mut records = listed(&flip_flop(&EVENTS), 100, "events");
    // A listing also has each node's value at tick 0; the document's begins undefined.
    let undefined = [(0, Q, UNKNOWN, 3), (0, QB, UNKNOWN, 6)];
    assert_eq!(records[2..4], undefined);
    records.drain(2..4);
    assert_eq!(records, ended(&MAIN, 100));
}

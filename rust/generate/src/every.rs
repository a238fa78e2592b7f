//! Families that are small enough to be taken whole.

use plain::{Edition, Sheet, INPUT, NONE, UNKNOWN};

use crate::byte;
use crate::sheets::*;

/// Every way to end the bytes too early: none of them, the first one, and so on.
pub fn truncations(bytes: &[u8]) -> impl Iterator<Item = &[u8]> {
    (0..bytes.len()).map(|length| &bytes[..length])
}

/// Every way to set one byte to any value, its own included.
pub fn single_bytes(bytes: &[u8]) -> impl Iterator<Item = Vec<u8>> + '_ {
    let places = 0..bytes.len();
    places.flat_map(move |place| {
        (0..=u8::MAX).map(move |value| {
            let mut changed = bytes.to_vec();
            changed[place] = value;
            changed
        })
    })
}

/// The kinds of an edition that have a rule over their inputs, in order.
pub fn gate_kinds(edition: Edition) -> Vec<u8> {
    let kinds = BUFFER..=edition.greatest_kind();
    kinds.filter(|&kind| kind != MEMORY).collect()
}

/// How many inputs the widest kinds of an edition have.
fn most_inputs(edition: Edition) -> u8 {
    match edition {
        Edition::First => 2,
        Edition::Second => 3,
    }
}

/// How many pairs or triples of values there are, and so at how many ticks [`gates`] sees a new one.
pub fn combinations(edition: Edition) -> u32 {
    4_u32.pow(most_inputs(edition).into())
}

/// The values of the inputs at a tick. The first counts most: of a pair it is t / 4 at tick t, and the
/// second is t % 4.
pub fn values(edition: Edition, tick: u32) -> Vec<u8> {
    let places = (0..most_inputs(edition)).rev();
    places
        .map(|place| (tick >> (2 * place) & 3) as u8)
        .collect()
}

/// The node that a kind drives in [`gates`].
pub fn output_of(edition: Edition, kind: u8) -> u8 {
    let before = gate_kinds(edition).into_iter().filter(|&k| k < kind);
    most_inputs(edition) + byte(before.count())
}

/// A gate of each kind over the same inputs, which go through every pair of values, in the second
/// edition through every triple, one a tick. All are watched.
pub fn gates(edition: Edition, delay: u16) -> Sheet {
    let module = |kind: u8| {
        let mut module = gate(kind, [], output_of(edition, kind), delay);
        for (input, node) in module.used_inputs_mut().zip(0..) {
            *input = node;
        }
        module
    };
    let modules: Vec<_> = gate_kinds(edition).into_iter().map(module).collect();
    let events = |tick: u32| {
        let values = (0..).zip(values(edition, tick));
        values.map(move |(node, value)| (tick, node, value))
    };
    let drive: Vec<Change> = (0..combinations(edition)).flat_map(events).collect();
    let mut nodes = vec![INPUT; most_inputs(edition).into()];
    nodes.resize(nodes.len() + modules.len(), UNKNOWN);
    let watched: Vec<u8> = (0..nodes.len()).map(byte).collect();
    sheet(&nodes, &modules, &drive, &watched)
}

/// What two contributions come to, written out: a row for each of the one, a column for each of the other.
pub const JOINED: [[u8; 4]; 4] = [[0, 2, 2, 0], [2, 1, 2, 1], [2, 2, 2, 2], [0, 1, 2, 3]];

/// What contributions come to together, by [`JOINED`] one after the other.
pub fn joined<const N: usize>(contributions: [u8; N]) -> u8 {
    let join = |one, other| JOINED[usize::from(one)][usize::from(other)];
    contributions.into_iter().fold(NONE, join)
}

/// Delays of two drivers, and of three: none, equal ones, either one longer.
pub const PAIRS: [[u16; 2]; 5] = [[0, 0], [0, 1], [1, 0], [3, 3], [5, 2]];
pub const TRIPLES: [[u16; 3]; 4] = [[0, 0, 0], [2, 0, 1], [3, 3, 3], [1, 2, 4]];

/// A node that each input drives over a memory that catches everything, with these delays. The inputs go
/// through every pair, triple and so on of values, and each stands for so long that all drivers have it at
/// its last tick.
pub struct Joins<const N: usize> {
    pub sheet: Sheet,
    pub horizon: u32,
    /// The values that the inputs have at each of these last ticks.
    pub values: Vec<(u32, [u8; N])>,
}

pub fn joins<const N: usize>(delays: [u16; N]) -> Joins<N> {
    let combinations = 4_u32.pow(N as u32);
    let lasts = 1 + delays.into_iter().max().map_or(0, u32::from);
    let values = |place: u32| std::array::from_fn(|input| (place >> (2 * input) & 3) as u8);
    let events = |place: u32| {
        let values: [u8; N] = values(place);
        (0..)
            .zip(values)
            .map(move |(input, value)| (place * lasts, input, value))
    };
    let drive: Vec<Change> = (0..combinations).flat_map(events).collect();
    let node = byte(N);
    let driver = |(input, delay)| memory(ANY_VALUE, [input; 2], node, delay);
    let modules: Vec<_> = (0..).zip(delays).map(driver).collect();
    let mut nodes = vec![INPUT; N];
    nodes.push(NONE);
    Joins {
        sheet: sheet(&nodes, &modules, &drive, &[node]),
        horizon: combinations * lasts,
        values: (0..combinations)
            .map(|place| ((place + 1) * lasts - 1, values(place)))
            .collect(),
    }
}

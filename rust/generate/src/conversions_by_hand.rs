//! Document 02's W-207: sheets written out in both editions, and what a conversion refuses, worked out
//! by hand.

use plain::{worked_run, Edition, INPUT};

use crate::by_hand;
use crate::sheets::*;

/// A sheet of an edition, the bytes of the output that it is converted into, what is answered, and the
/// bytes that are written.
pub struct Case {
    pub name: &'static str,
    pub from: Edition,
    pub sheet: Vec<u8>,
    pub bytes: usize,
    pub answer: [u32; 3],
    pub written: Vec<u8>,
}

impl Case {
    /// How a message names it.
    pub fn whence(&self) -> String {
        let Case {
            name, from, bytes, ..
        } = self;
        format!("{from:?}, {name}, into {bytes} bytes")
    }
}

/// More bytes than any of these sheets needs.
const AMPLE: usize = 10_000;

pub fn cases() -> Vec<Case> {
    [
        written_out(),
        kinds_not_in_first(),
        refused_by_their_check(),
    ]
    .into_iter()
    .flatten()
    .collect()
}

/// A refusal, whether the output has no byte or more than enough.
fn refused(name: &'static str, from: Edition, sheet: &[u8], answer: [u32; 3]) -> [Case; 2] {
    [0, AMPLE].map(|bytes| Case {
        name,
        from,
        sheet: sheet.to_vec(),
        bytes,
        answer,
        written: Vec::new(),
    })
}

/// A sheet's bytes in both editions: each is the other's conversion. The output is exact, one byte
/// longer, ample, one byte short, or has no byte.
fn both_ways(name: &'static str, first: &[u8], second: &[u8]) -> Vec<Case> {
    let ways = [
        (Edition::First, first, second),
        (Edition::Second, second, first),
    ];
    let into_every_output = |(from, sheet, other): (Edition, &[u8], &[u8])| {
        let needed = other.len();
        [needed, needed + 1, AMPLE, needed - 1, 0].map(|bytes| {
            let fits = bytes >= needed;
            Case {
                name,
                from,
                sheet: sheet.to_vec(),
                bytes,
                answer: match fits {
                    true => [0, 0, needed as u32],
                    false => [23, needed as u32, 0],
                },
                written: if fits { other.to_vec() } else { Vec::new() },
            }
        })
    };
    ways.into_iter().flat_map(into_every_output).collect()
}

/// Document 01's worked run in the second edition.
const WORKED_RUN_2: [u8; 32] = [
    0x02, 0x00, 0x04, 0x02, // nodes
    0x01, 0x00, // modules
    0x06, 0x00, 0x01, 0x00, 0x01, 0x00, 0x03, 0x00, // NAND, its third input before the delay
    0x02, 0x00, // drive
    0x00, 0x00, 0x00, 0x00, 0x00, 0x00, // low at tick 0
    0x05, 0x00, 0x00, 0x00, 0x00, 0x01, // high at tick 5
    0x02, 0x00, 0x00, 0x01, // watched
];

/// [`by_hand::start`] in the first edition.
const TWO_MODULES_1: [u8; 39] = [
    3, 0, 4, 0, 2, // nodes
    2, 0, // modules
    2, 0, 1, 0, 0, 1, 0, // an inverter
    6, 0, 2, 0, 1, 3, 0, // a NAND
    2, 0, 0, 0, 0, 0, 0, 0, 5, 0, 0, 0, 0, 1, // drive
    2, 0, 0, 2, // watched
];

/// The same in the second.
const TWO_MODULES_2: [u8; 41] = [
    3, 0, 4, 0, 2, // nodes
    2, 0, // modules
    2, 0, 1, 0, 0, 0, 1, 0, // an inverter
    6, 0, 2, 0, 1, 0, 3, 0, // a NAND
    2, 0, 0, 0, 0, 0, 0, 0, 5, 0, 0, 0, 0, 1, // drive
    2, 0, 0, 2, // watched
];

/// A bus of clocked inverters, two of them equal records, in the first edition.
const BUS_1: [u8; 45] = [
    3, 0, 4, 4, 3, // nodes
    3, 0, // modules
    8, 0, 2, 0, 1, 2, 0, // three that drive node 2
    8, 0, 2, 1, 0, 3, 0, //
    8, 0, 2, 0, 1, 2, 0, //
    2, 0, 0, 0, 0, 0, 0, 0, 0, 0, 0, 0, 1, 1, // drive
    1, 0, 2, // watched
];

/// The same in the second.
const BUS_2: [u8; 48] = [
    3, 0, 4, 4, 3, // nodes
    3, 0, // modules
    8, 0, 2, 0, 1, 0, 2, 0, // three that drive node 2
    8, 0, 2, 1, 0, 0, 3, 0, //
    8, 0, 2, 0, 1, 0, 2, 0, //
    2, 0, 0, 0, 0, 0, 0, 0, 0, 0, 0, 0, 1, 1, // drive
    1, 0, 2, // watched
];

/// The least sheet there is: an input that is never driven.
const ONE_INPUT: [u8; 9] = [1, 0, 4, 0, 0, 0, 0, 0, 0];

/// Two inputs, of which one is driven, late, and watched.
const NO_MODULES: [u8; 17] = [2, 0, 4, 4, 0, 0, 1, 0, 9, 0, 0, 0, 1, 1, 1, 0, 1];

/// Every kind of the first edition, with the greatest parameters and with delays of two bytes.
const EVERY_KIND_1: [[u8; 7]; 10] = [
    [0, 3, 1, 0, 0, 0x10, 0x27],
    [1, 0, 2, 1, 0, 0x0F, 0x27],
    [2, 0, 3, 2, 0, 0x01, 0x00],
    [3, 0, 4, 3, 10, 0x02, 0x01],
    [4, 0, 5, 4, 9, 0x03, 0x02],
    [5, 0, 6, 5, 8, 0x04, 0x03],
    [6, 0, 7, 6, 0, 0x05, 0x04],
    [7, 0, 8, 0, 7, 0x06, 0x05],
    [8, 0, 9, 8, 6, 0x07, 0x06],
    [9, 15, 10, 9, 5, 0x08, 0x07],
];

/// The same in the second.
const EVERY_KIND_2: [[u8; 8]; 10] = [
    [0, 3, 1, 0, 0, 0, 0x10, 0x27],
    [1, 0, 2, 1, 0, 0, 0x0F, 0x27],
    [2, 0, 3, 2, 0, 0, 0x01, 0x00],
    [3, 0, 4, 3, 10, 0, 0x02, 0x01],
    [4, 0, 5, 4, 9, 0, 0x03, 0x02],
    [5, 0, 6, 5, 8, 0, 0x04, 0x03],
    [6, 0, 7, 6, 0, 0, 0x05, 0x04],
    [7, 0, 8, 0, 7, 0, 0x06, 0x05],
    [8, 0, 9, 8, 6, 0, 0x07, 0x06],
    [9, 15, 10, 9, 5, 0, 0x08, 0x07],
];

/// An input and these ten modules' records, which drive the nodes after it.
fn ten_modules(records: &[u8]) -> Vec<u8> {
    let nodes = [11, 0, 4, 0, 1, 2, 3, 0, 1, 2, 3, 0, 1];
    let rest = [1, 0, 0x3F, 0x42, 0x0F, 0, 0, 3, 2, 0, 0, 10];
    [&nodes[..], &[10, 0], records, &rest].concat()
}

fn written_out() -> Vec<Case> {
    let every_kind = [
        ten_modules(EVERY_KIND_1.as_flattened()),
        ten_modules(EVERY_KIND_2.as_flattened()),
    ];
    [
        both_ways("the worked run", worked_run::SHEET, &WORKED_RUN_2),
        both_ways("two modules", &TWO_MODULES_1, &TWO_MODULES_2),
        both_ways("three drivers of one node", &BUS_1, &BUS_2),
        both_ways("one input", &ONE_INPUT, &ONE_INPUT),
        both_ways("no modules", &NO_MODULES, &NO_MODULES),
        both_ways("every kind", &every_kind[0], &every_kind[1]),
    ]
    .into_iter()
    .flatten()
    .collect()
}

/// Four modules of these kinds that read an input, node 0. Their records stand at bytes 9, 17, 25, 33.
fn four_modules(kinds: [u8; 4]) -> Vec<u8> {
    let modules: Vec<_> = kinds
        .into_iter()
        .zip(1..)
        .map(|(kind, output)| gate(kind, [], output, 1))
        .collect();
    let sheet = sheet(&[INPUT, 0, 1, 2, 3], &modules, &[(0, 0, 1)], &[4]);
    sheet.encode(Edition::Second)
}

/// Refusal 22 at the first record whose kind the first edition lacks, before 23.
fn kinds_not_in_first() -> Vec<Case> {
    let first_at = |name, kinds: [u8; 4], place: u32| {
        let sheet = four_modules(kinds);
        refused(name, Edition::Second, &sheet, [22, place, 0])
    };
    let last = |name, kind| first_at(name, [BUFFER, NOR, MEMORY, kind], 33);
    [
        first_at("the first of four", [AND_3, BUFFER, BUFFER, BUFFER], 9),
        first_at("all of four", [MULTIPLEXER; 4], 9),
        first_at("the second and third", [MEMORY, NOR_3, XOR_3, MEMORY], 17),
        first_at("the second and last", [MEMORY, AND_3, NOR, AND_3], 17),
        first_at("the third", [MEMORY, NOR, MULTIPLEXER, BUFFER], 25),
        last("the last, kind 10", AND_3),
        last("the last, kind 11", OR_3),
        last("the last, kind 12", XOR_3),
        last("the last, kind 13", NAND_3),
        last("the last, kind 14", NOR_3),
        last("the last, kind 15", MULTIPLEXER),
    ]
    .into_iter()
    .flatten()
    .collect()
}

/// Every sheet that its own edition's check refuses gets that refusal, before 22 and 23; 15, which is
/// a strict check's, is not among them.
fn refused_by_their_check() -> Vec<Case> {
    let mut cases = by_hand::cases();
    cases.retain(|case| case.answer != by_hand::ACCEPTED);
    cases
        .into_iter()
        .flat_map(|case| refused(case.name, case.edition, &case.sheet, case.answer))
        .collect()
}

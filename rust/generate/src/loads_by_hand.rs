//! Document 02's W-210: sheets with the drives that [`FIRST_DRAWS`] give, and what a load refuses, worked out
//! by hand.
//!
//! [`FIRST_DRAWS`]: crate::draws_by_hand::FIRST_DRAWS

use plain::{worked_run, Edition, Sheet, INPUT, LOW, UNKNOWN};

use crate::by_hand::{self, start_2, two_drivers};
use crate::limits::MOST_NODES;
use crate::shared::{toggled, unknown_at_first};
use crate::sheets::*;

/// A sheet of an edition and what its drive is drawn from, the bytes of the output that it is written to,
/// what is answered, and the bytes that are written.
#[derive(Clone)]
pub struct Case {
    pub name: &'static str,
    pub edition: Edition,
    pub sheet: Vec<u8>,
    pub seed: u32,
    pub n: u32,
    pub bytes: usize,
    pub answer: [u32; 3],
    pub written: Vec<u8>,
}

impl Case {
    /// How a message names it.
    pub fn whence(&self) -> String {
        format!(
            "{:?}, {}, seed {}, {} events, into {} bytes",
            self.edition, self.name, self.seed, self.n, self.bytes
        )
    }
}

/// More bytes than any of these sheets needs.
const AMPLE: usize = 10_000;

/// The last seed, and the last count.
const LAST: u32 = 4_294_967_295;

pub fn cases() -> Vec<Case> {
    [
        written_out(),
        one_input(),
        two_inputs(),
        three_inputs(),
        four_inputs(),
        the_last_node(),
        no_input(),
        other_drives(),
        of_three_inputs(),
        too_many(),
        refused_by_their_check(),
    ]
    .into_iter()
    .flatten()
    .collect()
}

/// The sheet that a seed and so many events give, into outputs that are exact, one byte longer, ample, one
/// byte short, or have no byte.
fn into_every_output(
    name: &'static str,
    edition: Edition,
    sheet: &[u8],
    (seed, n): (u32, u32),
    loaded: &[u8],
) -> [Case; 5] {
    let needed = loaded.len();
    [needed, needed + 1, AMPLE, needed - 1, 0].map(|bytes| {
        let fits = bytes >= needed;
        Case {
            name,
            edition,
            sheet: sheet.to_vec(),
            seed,
            n,
            bytes,
            answer: match fits {
                true => [0, 0, needed as u32],
                false => [23, needed as u32, 0],
            },
            written: if fits { loaded.to_vec() } else { Vec::new() },
        }
    })
}

/// The drive that a seed gives: the events at tick 0, and those that follow.
struct Drive<'a> {
    seed: u32,
    firsts: &'a [Change],
    further: &'a [Change],
}

/// A sheet in these editions with a seed's drive, which for fewer events is the beginning of it.
fn loads(name: &'static str, given: &Sheet, editions: &[Edition], drive: &Drive) -> Vec<Case> {
    let &Drive {
        seed,
        firsts,
        further,
    } = drive;
    let with_events = |n: usize| {
        let drive = [firsts, &further[..n]].concat();
        let loaded = sheet(&given.nodes, &given.modules, &drive, &given.watched);
        let in_edition = |&edition: &Edition| {
            let (from, to) = (given.encode(edition), loaded.encode(edition));
            into_every_output(name, edition, &from, (seed, n as u32), &to)
        };
        editions.iter().flat_map(in_edition).collect::<Vec<_>>()
    };
    (0..=further.len()).flat_map(with_events).collect()
}

/// The same in every edition.
fn in_every_edition(name: &'static str, given: &Sheet, drive: &Drive) -> Vec<Case> {
    loads(name, given, &Edition::ALL, drive)
}

/// Document 01's worked run, loaded from seed 0 with two events.
const WORKED_RUN_1: [u8; 37] = [
    2, 0, 4, 2, // nodes
    1, 0, // modules
    6, 0, 1, 0, 1, 3, 0, // a NAND
    3, 0, // drive
    0, 0, 0, 0, 0, 0, // low at tick 0
    29, 0, 0, 0, 0, 1, // high at tick 29
    38, 0, 0, 0, 0, 1, // and at tick 38
    2, 0, 0, 1, // watched
];

/// The same in the second edition.
const WORKED_RUN_2: [u8; 38] = [
    2, 0, 4, 2, // nodes
    1, 0, // modules
    6, 0, 1, 0, 1, 0, 3, 0, // a NAND, its third input before the delay
    3, 0, // drive
    0, 0, 0, 0, 0, 0, // low at tick 0
    29, 0, 0, 0, 0, 1, // high at tick 29
    38, 0, 0, 0, 0, 1, // and at tick 38
    2, 0, 0, 1, // watched
];

/// The drives of [`one_input`], their bytes written out.
fn written_out() -> Vec<Case> {
    let sheet = worked_run::sheet();
    let written = [
        (Edition::First, &WORKED_RUN_1[..]),
        (Edition::Second, &WORKED_RUN_2),
    ];
    let in_edition = |(edition, loaded)| {
        let given = sheet.encode(edition);
        into_every_output("written out", edition, &given, (0, 2), loaded)
    };
    written.into_iter().flat_map(in_edition).collect()
}

/// Draw 1 is the first value. Then three draws make an event: draws 2, 5 and 8 modulo 64 are 28, 8 and 51
/// from seed 0, 29, 11 and 50 from seed 1, 31, 9 and 60 from the last one, and draws 4, 7 and 10 are the
/// values.
fn one_input() -> Vec<Case> {
    let drives = [
        Drive {
            seed: 0,
            firsts: &[(0, 0, 0)],
            further: &[(29, 0, 1), (38, 0, 1), (90, 0, 0)],
        },
        Drive {
            seed: 1,
            firsts: &[(0, 0, 1)],
            further: &[(30, 0, 0), (42, 0, 0), (93, 0, 1)],
        },
        Drive {
            seed: LAST,
            firsts: &[(0, 0, 1)],
            further: &[(32, 0, 0), (42, 0, 0), (103, 0, 1)],
        },
    ];
    let sheets = [
        ("the worked run", worked_run::sheet()),
        ("three drivers of two nodes", two_drivers()),
    ];
    let of_sheet = |(name, sheet): &(&'static str, Sheet)| {
        let of_seed = |drive| in_every_edition(name, sheet, drive);
        drives.iter().flat_map(of_seed).collect::<Vec<_>>()
    };
    sheets.iter().flat_map(of_sheet).collect()
}

/// Inputs at nodes 0 and 2. Draws 3, 6 and 9 modulo 64 are 13, 26 and 50 from seed 0, and 12, 25 and 51
/// from the last one; draws 4, 7 and 10 modulo 2 are the positions, 1, 1, 0 and 0, 0, 1.
fn two_inputs() -> Vec<Case> {
    let modules = [gate(AND, [0, 2], 1, 4)];
    let given = sheet(&[INPUT, LOW, INPUT], &modules, &[(0, 2, 1)], &[0, 1, 2]);
    let of_first = Drive {
        seed: 0,
        firsts: &[(0, 0, 0), (0, 2, 0)],
        further: &[(14, 2, 0), (41, 2, 1), (92, 0, 1)],
    };
    let of_last = Drive {
        seed: LAST,
        firsts: &[(0, 0, 1), (0, 2, 1)],
        further: &[(13, 0, 1), (39, 0, 0), (91, 2, 0)],
    };
    [of_first, of_last]
        .iter()
        .flat_map(|drive| in_every_edition("two inputs", &given, drive))
        .collect()
}

/// Inputs at nodes 1, 3 and 4. Draws 4, 7 and 10 modulo 64 are 57, 11 and 16 from seed 0, 56, 20 and 17
/// from seed 1, 62, 10 and 19 from the last one. Draws 5, 8 and 11 are 30,600, 15,475 and 63,121 from seed
/// 0, which modulo 3 are 0, 1 and 1, from seed 1 30,603, 15,474 and 63,126, 0, 0 and 0, and from the last
/// one 30,601, 15,484 and 63,120, 1, 1 and 0.
fn three_inputs() -> Vec<Case> {
    let modules = [
        gate(INVERTER, [3], 5, 0),
        gate(OR, [1, 4], 0, 2),
        gate(BUFFER, [0], 2, 10_000),
    ];
    let nodes = [UNKNOWN, INPUT, LOW, INPUT, INPUT, LOW];
    let own = [(0, 1, 3), (0, 3, 2), (0, 4, 1), (7, 4, 3), (7_000, 1, 0)];
    let given = sheet(&nodes, &modules, &own, &[1, 2, 5]);
    let drives = [
        Drive {
            seed: 0,
            firsts: &[(0, 1, 0), (0, 3, 0), (0, 4, 1)],
            further: &[(58, 1, 0), (70, 3, 0), (87, 3, 1)],
        },
        Drive {
            seed: 1,
            firsts: &[(0, 1, 1), (0, 3, 1), (0, 4, 0)],
            further: &[(57, 1, 1), (78, 1, 1), (96, 1, 0)],
        },
        Drive {
            seed: LAST,
            firsts: &[(0, 1, 1), (0, 3, 1), (0, 4, 0)],
            further: &[(63, 3, 1), (74, 3, 1), (94, 1, 0)],
        },
    ];
    let of_seed = |drive| in_every_edition("three inputs", &given, drive);
    drives.iter().flat_map(of_seed).collect()
}

/// Inputs at nodes 0, 2, 3 and 6. Draws 5 and 8 modulo 64 are 8 and 51 from seed 0, 11 and 50 from seed 1,
/// 9 and 60 from the last one; draws 6 and 9 modulo 4 are 2 and 2, 3 and 1, 1 and 3.
fn four_inputs() -> Vec<Case> {
    let nodes = [INPUT, LOW, INPUT, INPUT, LOW, LOW, INPUT];
    let modules = [1, 4, 5].map(|output| gate(NOR, [0, 6], output, 1));
    let given = sheet(&nodes, &modules, &[], &[]);
    let drives = [
        Drive {
            seed: 0,
            firsts: &[(0, 0, 0), (0, 2, 0), (0, 3, 1), (0, 6, 1)],
            further: &[(9, 3, 1), (61, 3, 0)],
        },
        Drive {
            seed: 1,
            firsts: &[(0, 0, 1), (0, 2, 1), (0, 3, 0), (0, 6, 0)],
            further: &[(12, 6, 0), (63, 2, 1)],
        },
        Drive {
            seed: LAST,
            firsts: &[(0, 0, 1), (0, 2, 1), (0, 3, 0), (0, 6, 0)],
            further: &[(10, 2, 0), (71, 6, 1)],
        },
    ];
    let of_seed = |drive| in_every_edition("four inputs", &given, drive);
    drives.iter().flat_map(of_seed).collect()
}

/// The only input is node 255.
fn the_last_node() -> Vec<Case> {
    let mut nodes = [LOW; MOST_NODES];
    nodes[255] = INPUT;
    let outputs = 0..255;
    let modules: Vec<_> = outputs
        .map(|output| gate(BUFFER, [255], output, 1))
        .collect();
    let given = sheet(&nodes, &modules, &[(0, 255, 1)], &[0, 255]);
    let drive = Drive {
        seed: 1,
        firsts: &[(0, 255, 1)],
        further: &[(30, 255, 0)],
    };
    in_every_edition("node 255", &given, &drive)
}

/// An inverter onto its own input.
fn ring() -> Sheet {
    sheet(&[LOW], &[gate(INVERTER, [0], 0, 1)], &[], &[0])
}

/// Without an input and without events to draw the sheet is written as it is.
fn no_input() -> Vec<Case> {
    let drive = |seed| Drive {
        seed,
        firsts: &[],
        further: &[],
    };
    [0, 1, LAST]
        .iter()
        .flat_map(|&seed| in_every_edition("no input", &ring(), &drive(seed)))
        .collect()
}

/// A drive of 1,024 events, and inputs that never begin or begin late.
fn other_drives() -> Vec<Case> {
    let full = Drive {
        seed: 1,
        firsts: &[(0, 0, 1)],
        further: &[(30, 0, 0)],
    };
    let late = Drive {
        seed: 0,
        firsts: &[(0, 0, 0), (0, 1, 0), (0, 2, 1)],
        further: &[(58, 0, 0), (70, 1, 0), (87, 1, 1)],
    };
    [
        in_every_edition("a full drive", &toggled(&[]), &full),
        in_every_edition("begun late", &unknown_at_first(), &late),
    ]
    .concat()
}

/// A multiplexer, which the second edition alone has.
fn of_three_inputs() -> Vec<Case> {
    let drive = Drive {
        seed: 0,
        firsts: &[(0, 0, 0), (0, 1, 0)],
        further: &[(14, 1, 0), (41, 1, 1), (92, 0, 1)],
    };
    loads("a multiplexer", &start_2(), &[Edition::Second], &drive)
}

/// A refusal that has nothing to do with the output's length.
fn refused(
    name: &'static str,
    edition: Edition,
    sheet: &[u8],
    [n, bytes]: [u32; 2],
    answer: [u32; 3],
) -> Case {
    Case {
        name,
        edition,
        sheet: sheet.to_vec(),
        seed: 7,
        n,
        bytes: bytes as usize,
        answer,
        written: Vec::new(),
    }
}

/// Refusal 26: one event more than there may be, or many, or so many that the sum with the inputs is 2 to the
/// power 32 or a little more; any event without an input.
fn too_many() -> Vec<Case> {
    let inputs = |count: usize| sheet(&vec![INPUT; count], &[], &[], &[]);
    let sheets = [
        (
            "events for no input",
            ring(),
            &[1, 2, 1_024, 1_025, LAST][..],
        ),
        ("one input", inputs(1), &[1_024, 1_025, 65_536, LAST]),
        ("two inputs", inputs(2), &[1_023, LAST - 1, LAST]),
        (
            "three inputs",
            inputs(3),
            &[1_022, LAST - 2, LAST - 1, LAST],
        ),
        (
            "256 inputs",
            inputs(256),
            &[769, 1_024, LAST - 255, LAST - 254, LAST],
        ),
    ];
    let mut cases = Vec::new();
    for (name, sheet, counts) in &sheets {
        for edition in Edition::ALL {
            let sheet = sheet.encode(edition);
            for &n in *counts {
                let into = |bytes| refused(name, edition, &sheet, [n, bytes], [26, 0, 0]);
                cases.extend([0, AMPLE as u32].map(into));
            }
        }
    }
    cases
}

/// Every sheet that its check refuses gets that refusal, before 26 and 23; 15, which is a strict check's,
/// is not among them.
fn refused_by_their_check() -> Vec<Case> {
    let mut cases = by_hand::cases();
    cases.retain(|case| case.answer != by_hand::ACCEPTED);
    let twice = |case: by_hand::Case| {
        [[0, AMPLE as u32], [LAST, 0]]
            .map(|given| refused(case.name, case.edition, &case.sheet, given, case.answer))
    };
    cases.into_iter().flat_map(twice).collect()
}

//! Document 02's W-208: reports of pulses worked out by hand, byte for byte, and what is refused.

use plain::{worked_run, Edition, Sheet, HIGH, INPUT, LOW, NONE, UNKNOWN};

use crate::by_hand;
use crate::drivers_by_hand;
use crate::ends_by_hand;
use crate::limits::{LAST_HORIZON, MOST_NODES, PULSE_BYTES, RECORD_BYTES};
use crate::runs_by_hand::every_choice;
use crate::shared::{four_buffers, toggled, unknown_at_first, UNKNOWN_AT_FIRST};
use crate::sheets::*;

/// A sheet of an edition and what is asked of it, the bytes of both buffers, what is answered, the records
/// that the listing then has, and the bytes that are written to the report.
#[derive(Clone)]
pub struct Case {
    pub name: &'static str,
    pub edition: Edition,
    pub sheet: Vec<u8>,
    pub horizon: u32,
    pub width: u32,
    pub listing_bytes: usize,
    pub report_bytes: usize,
    pub answer: [u32; 3],
    pub records: Vec<Record>,
    pub report: Vec<u8>,
}

impl Case {
    /// How a message names it.
    pub fn whence(&self) -> String {
        format!(
            "{:?}, {}, horizon {}, width {}, into {} and {} bytes",
            self.edition,
            self.name,
            self.horizon,
            self.width,
            self.listing_bytes,
            self.report_bytes
        )
    }

    /// The same over a sheet in each of these editions.
    fn over(self, sheet: &Sheet, editions: &[Edition]) -> Vec<Case> {
        let in_edition = |&edition: &Edition| Case {
            edition,
            sheet: sheet.encode(edition),
            ..self.clone()
        };
        editions.iter().map(in_edition).collect()
    }
}

/// More bytes than most of these listings and reports need.
const AMPLE: usize = 1_000;

pub fn cases() -> Vec<Case> {
    [
        the_worked_run(),
        one_input(),
        an_event_that_changes_nothing(),
        ends_of_a_run(),
        several_nodes(),
        the_last_node(),
        not_known(),
        modules(),
        numbers_of_several_bytes(),
        the_longest_width(),
        the_last_ticks(),
        of_three_inputs(),
        of_several_drivers(),
        outside_their_ranges(),
        no_whole_listing(),
        refused_by_their_check(),
    ]
    .into_iter()
    .flatten()
    .collect()
}

/// A run that finishes with these records.
struct Run<'a> {
    sheet: &'a Sheet,
    editions: &'a [Edition],
    horizon: u32,
    records: &'a [Record],
}

/// The bytes of a pulse: start tick, node, length.
type Bytes = [u8; PULSE_BYTES];

impl<'a> Run<'a> {
    /// The same in every edition.
    fn new(sheet: &'a Sheet, horizon: u32, records: &'a [Record]) -> Run<'a> {
        Run {
            sheet,
            editions: &Edition::ALL,
            horizon,
            records,
        }
    }

    /// The report of a width into buffers that take it, and refused by 25 where there is no byte, a pulse
    /// too few or a byte too few.
    fn reports(&self, name: &'static str, width: u32, report: &[Bytes]) -> Vec<Case> {
        let needed = PULSE_BYTES * report.len();
        let mut lengths = vec![needed, needed + 1, needed + PULSE_BYTES, AMPLE];
        if needed > 0 {
            lengths.extend([needed - 1, needed - PULSE_BYTES, 0]);
        }
        let into = |bytes| self.report(name, width, report, bytes);
        lengths.into_iter().flat_map(into).collect()
    }

    fn report(
        &self,
        name: &'static str,
        width: u32,
        report: &[Bytes],
        report_bytes: usize,
    ) -> Vec<Case> {
        let (pulses, records) = (report.len() as u32, self.records.len());
        let fits = report_bytes >= PULSE_BYTES * report.len();
        let case = Case {
            name,
            edition: Edition::First,
            sheet: Vec::new(),
            horizon: self.horizon,
            width,
            // Exact, or nearly a record longer.
            listing_bytes: RECORD_BYTES * records + 9 * (report_bytes % 2),
            report_bytes,
            answer: match fits {
                true => [0, 0, pulses],
                false => [25, pulses, records as u32],
            },
            records: self.records.to_vec(),
            report: if fits { report.concat() } else { Vec::new() },
        };
        case.over(self.sheet, self.editions)
    }
}

/// Node 1 is X up to tick 3, then 1 up to 8, 0 up to 11, and 1; node 0 is 0 up to 5, and then 1.
fn the_worked_run() -> Vec<Case> {
    let sheet = worked_run::sheet();
    let run = Run::new(&sheet, worked_run::HORIZON, &worked_run::RECORDS);
    let high = [3, 0, 0, 0, 1, 5, 0, 0, 0];
    let low = [8, 0, 0, 0, 1, 3, 0, 0, 0];
    [
        run.reports("the worked run, the least width", 1, &[]),
        run.reports("the worked run, one as long", 3, &[]),
        run.reports("the worked run, one shorter", 4, &[low]),
        run.reports("the worked run, the other as long", 5, &[low]),
        run.reports("the worked run, both shorter", 6, &[high, low]),
        run.reports("the worked run, any width", 10_000, &[high, low]),
    ]
    .concat()
}

/// One input, watched.
fn input(drive: &[Change]) -> Sheet {
    sheet(&[INPUT], &[], drive, &[0])
}

/// After a first stretch of one tick there are stretches of 2, 3, 4, 3 and 1 ticks, and a last one.
fn one_input() -> Vec<Case> {
    let sheet = input(&[
        (0, 0, LOW),
        (1, 0, HIGH),
        (3, 0, LOW),
        (6, 0, HIGH),
        (10, 0, LOW),
        (13, 0, HIGH),
        (14, 0, LOW),
    ]);
    let records = [
        (0, 0, 0, 1),
        (1, 0, 1, 3),
        (3, 0, 0, 6),
        (6, 0, 1, 10),
        (10, 0, 0, 13),
        (13, 0, 1, 14),
        (14, 0, 0, 16),
    ];
    let run = Run::new(&sheet, 16, &records);
    let of_2 = [1, 0, 0, 0, 0, 2, 0, 0, 0];
    let of_3 = [3, 0, 0, 0, 0, 3, 0, 0, 0];
    let of_4 = [6, 0, 0, 0, 0, 4, 0, 0, 0];
    let again = [10, 0, 0, 0, 0, 3, 0, 0, 0];
    let of_1 = [13, 0, 0, 0, 0, 1, 0, 0, 0];
    [
        run.reports("one input", 1, &[]),
        run.reports("one input", 2, &[of_1]),
        run.reports("one input", 3, &[of_2, of_1]),
        run.reports("one input", 4, &[of_2, of_3, again, of_1]),
        run.reports("one input", 5, &[of_2, of_3, of_4, again, of_1]),
    ]
    .concat()
}

/// The events at ticks 3 and 6 end no stretch and start none.
fn an_event_that_changes_nothing() -> Vec<Case> {
    let sheet = input(&[
        (0, 0, LOW),
        (2, 0, HIGH),
        (3, 0, HIGH),
        (5, 0, LOW),
        (6, 0, LOW),
        (9, 0, HIGH),
    ]);
    let records = [(0, 0, 0, 2), (2, 0, 1, 5), (5, 0, 0, 9), (9, 0, 1, 10)];
    let run = Run::new(&sheet, 10, &records);
    let high = [2, 0, 0, 0, 0, 3, 0, 0, 0];
    let low = [5, 0, 0, 0, 0, 4, 0, 0, 0];
    [
        run.reports("no part of a stretch", 3, &[]),
        run.reports("a stretch over an event", 4, &[high]),
        run.reports("both stretches over events", 5, &[high, low]),
    ]
    .concat()
}

/// High at tick 1 alone, to each horizon in turn. The stretch from tick 0 is no pulse, nor is the last one,
/// even where a change at the horizon would end it.
fn ends_of_a_run() -> Vec<Case> {
    let sheet = input(&[(0, 0, LOW), (1, 0, HIGH), (2, 0, LOW)]);
    let to = |name, horizon, records: &[Record], report: &[Bytes]| {
        Run::new(&sheet, horizon, records).reports(name, 10_000, report)
    };
    let pulse = [1, 0, 0, 0, 0, 1, 0, 0, 0];
    [
        to("one tick", 1, &[(0, 0, 0, 1)], &[]),
        to(
            "a change at the horizon",
            2,
            &[(0, 0, 0, 1), (1, 0, 1, 2)],
            &[],
        ),
        to(
            "a change at the last tick",
            3,
            &[(0, 0, 0, 1), (1, 0, 1, 2), (2, 0, 0, 3)],
            &[pulse],
        ),
    ]
    .concat()
}

/// Nodes 0, 1 and 3 are watched, node 2 does what node 0 does. Three pulses start at tick 4.
fn several_nodes() -> Vec<Case> {
    let drive = [
        (0, 0, LOW),
        (0, 1, HIGH),
        (0, 2, LOW),
        (0, 3, LOW),
        (2, 1, LOW),
        (4, 0, HIGH),
        (4, 1, HIGH),
        (4, 2, HIGH),
        (4, 3, HIGH),
        (5, 1, LOW),
        (6, 0, LOW),
        (6, 2, LOW),
        (7, 3, LOW),
    ];
    let watching = |watched: &[u8]| sheet(&[INPUT; 4], &[], &drive, watched);
    let records = [
        (0, 0, 0, 4),
        (0, 1, 1, 2),
        (0, 3, 0, 4),
        (2, 1, 0, 4),
        (4, 0, 1, 6),
        (4, 1, 1, 5),
        (4, 3, 1, 7),
        (5, 1, 0, 10),
        (6, 0, 0, 10),
        (7, 3, 0, 10),
    ];
    let early = [2, 0, 0, 0, 1, 2, 0, 0, 0];
    let of_0 = [4, 0, 0, 0, 0, 2, 0, 0, 0];
    let of_1 = [4, 0, 0, 0, 1, 1, 0, 0, 0];
    let of_3 = [4, 0, 0, 0, 3, 3, 0, 0, 0];
    let (sheet, unwatched) = (watching(&[0, 1, 3]), watching(&[]));
    let run = Run::new(&sheet, 10, &records);
    [
        run.reports("several nodes", 2, &[of_1]),
        run.reports("several nodes", 3, &[early, of_0, of_1]),
        run.reports("several nodes", 4, &[early, of_0, of_1, of_3]),
        Run::new(&unwatched, 10, &[]).reports("none watched", 4, &[]),
    ]
    .concat()
}

fn the_last_node() -> Vec<Case> {
    let drive = [(0, 255, LOW), (3, 255, HIGH), (4, 255, LOW)];
    let sheet = sheet(&[INPUT; MOST_NODES], &[], &drive, &[254, 255]);
    let records = [
        (0, 254, 2, 9),
        (0, 255, 0, 3),
        (3, 255, 1, 4),
        (4, 255, 0, 9),
    ];
    let pulse = [3, 0, 0, 0, 255, 1, 0, 0, 0];
    Run::new(&sheet, 9, &records).reports("node 255", 2, &[pulse])
}

/// X up to tick 2, Z up to 4, X up to 5, 1 up to 8, Z up to 9, and 0; then what a memory and a NAND make of
/// an input that begins late.
fn not_known() -> Vec<Case> {
    let sheet = input(&[
        (2, 0, NONE),
        (4, 0, UNKNOWN),
        (5, 0, HIGH),
        (8, 0, NONE),
        (9, 0, LOW),
    ]);
    let records = [
        (0, 0, 2, 2),
        (2, 0, 3, 4),
        (4, 0, 2, 5),
        (5, 0, 1, 8),
        (8, 0, 3, 9),
        (9, 0, 0, 12),
    ];
    let run = Run::new(&sheet, 12, &records);
    let none = [2, 0, 0, 0, 0, 2, 0, 0, 0];
    let unknown = [4, 0, 0, 0, 0, 1, 0, 0, 0];
    let high = [5, 0, 0, 0, 0, 3, 0, 0, 0];
    let none_again = [8, 0, 0, 0, 0, 1, 0, 0, 0];
    let late = unknown_at_first();
    let of_3 = [1, 0, 0, 0, 3, 2, 0, 0, 0];
    let of_2 = [2, 0, 0, 0, 2, 2, 0, 0, 0];
    let of_4 = [2, 0, 0, 0, 4, 2, 0, 0, 0];
    [
        run.reports("not known", 2, &[unknown, none_again]),
        run.reports("not known", 3, &[none, unknown, none_again]),
        run.reports("not known", 4, &[none, unknown, high, none_again]),
        Run::new(&late, 6, &UNKNOWN_AT_FIRST).reports("begun late", 3, &[of_3, of_2, of_4]),
    ]
    .concat()
}

/// An inverter onto its own input, and the XOR of an input with what it was two ticks before.
fn modules() -> Vec<Case> {
    let ring = sheet(&[LOW], &[gate(INVERTER, [0, 0], 0, 1)], &[], &[0]);
    let of_ring = [(0, 0, 0, 1), (1, 0, 1, 2), (2, 0, 0, 3), (3, 0, 1, 4)];
    let edges = [gate(XOR, [0, 1], 2, 0), gate(BUFFER, [0, 0], 1, 2)];
    let drive = [(0, 0, LOW), (5, 0, HIGH)];
    let edges = sheet(&[INPUT, LOW, LOW], &edges, &drive, &[2]);
    let of_edges = [(0, 2, 0, 5), (5, 2, 1, 7), (7, 2, 0, 10)];
    let first = [1, 0, 0, 0, 0, 1, 0, 0, 0];
    let second = [2, 0, 0, 0, 0, 1, 0, 0, 0];
    let glitch = [5, 0, 0, 0, 2, 2, 0, 0, 0];
    [
        Run::new(&ring, 4, &of_ring).reports("a ring", 2, &[first, second]),
        Run::new(&edges, 10, &of_edges).reports("an edge", 2, &[]),
        Run::new(&edges, 10, &of_edges).reports("an edge", 3, &[glitch]),
    ]
    .concat()
}

/// 658,188 is 0x0A0B0C, and the pulse lasts for 258 ticks, 0x0102.
fn numbers_of_several_bytes() -> Vec<Case> {
    let sheet = input(&[(0, 0, LOW), (658_188, 0, HIGH), (658_446, 0, LOW)]);
    let records = [
        (0, 0, 0, 658_188),
        (658_188, 0, 1, 658_446),
        (658_446, 0, 0, 700_000),
    ];
    let run = Run::new(&sheet, 700_000, &records);
    let pulse = [0x0C, 0x0B, 0x0A, 0, 0, 0x02, 0x01, 0, 0];
    [
        run.reports("the low byte first", 258, &[]),
        run.reports("the low byte first", 259, &[pulse]),
    ]
    .concat()
}

/// Pulses of 9,999 ticks, of 10,000 and of one: 9,999 is 0x270F, and the last starts at 20,000, 0x4E20.
fn the_longest_width() -> Vec<Case> {
    let sheet = input(&[
        (0, 0, LOW),
        (1, 0, HIGH),
        (10_000, 0, LOW),
        (20_000, 0, HIGH),
        (20_001, 0, LOW),
    ]);
    let records = [
        (0, 0, 0, 1),
        (1, 0, 1, 10_000),
        (10_000, 0, 0, 20_000),
        (20_000, 0, 1, 20_001),
        (20_001, 0, 0, 20_002),
    ];
    let run = Run::new(&sheet, 20_002, &records);
    let long = [1, 0, 0, 0, 0, 0x0F, 0x27, 0, 0];
    let short = [0x20, 0x4E, 0, 0, 0, 1, 0, 0, 0];
    [
        run.reports("the longest width", 10_000, &[long, short]),
        run.reports("a tick less", 9_999, &[short]),
    ]
    .concat()
}

/// The last pulse that there can be: 999,998 is 0x0F423E.
fn the_last_ticks() -> Vec<Case> {
    let sheet = input(&[(0, 0, LOW), (999_998, 0, HIGH), (999_999, 0, LOW)]);
    let records = [
        (0, 0, 0, 999_998),
        (999_998, 0, 1, 999_999),
        (999_999, 0, 0, 1_000_000),
    ];
    let pulse = [0x3E, 0x42, 0x0F, 0, 0, 1, 0, 0, 0];
    Run::new(&sheet, LAST_HORIZON, &records).reports("the last ticks", 2, &[pulse])
}

/// A multiplexer's pulses of two ticks, and of three.
fn of_three_inputs() -> Vec<Case> {
    let case = every_choice();
    let run = Run {
        sheet: &case.sheet,
        editions: &[Edition::Second],
        horizon: case.horizon,
        records: &case.records,
    };
    let second = [5, 0, 0, 0, 3, 2, 0, 0, 0];
    let neither = [7, 0, 0, 0, 3, 2, 0, 0, 0];
    let chosen_none = [12, 0, 0, 0, 3, 2, 0, 0, 0];
    let first = [2, 0, 0, 0, 3, 3, 0, 0, 0];
    let both = [9, 0, 0, 0, 3, 3, 0, 0, 0];
    [
        run.reports("a multiplexer", 3, &[second, neither, chosen_none]),
        run.reports(
            "a multiplexer",
            4,
            &[first, second, neither, both, chosen_none],
        ),
    ]
    .concat()
}

/// Document 02's W-209 as well. From tick 4 on the bus has stretches of 3, 2, 2, 2, 2, 1 and 2 ticks, of which
/// the one between ticks 12 and 13 of two contributions that are alike is none of its own.
fn of_several_drivers() -> Vec<Case> {
    let ends_by_hand::Case {
        sheet,
        horizon,
        records,
        ..
    } = drivers_by_hand::two_inverters();
    let run = Run::new(&sheet, horizon, &records);
    let pulse = |start: u8, length: u8| [start, 0, 0, 0, 4, length, 0, 0, 0];
    let of_3 = pulse(4, 3);
    let of_2 = [7, 9, 11, 13].map(|start| pulse(start, 2));
    let of_1 = pulse(15, 1);
    let again = pulse(16, 2);
    let shorter = [&of_2[..], &[of_1, again]].concat();
    [
        run.reports("a bus", 1, &[]),
        run.reports("a bus", 2, &[of_1]),
        run.reports("a bus", 3, &shorter),
        run.reports("a bus", 4, &[&[of_3][..], &shorter].concat()),
    ]
    .concat()
}

/// A refusal that leaves these records in the listing, whether the report has no byte or more than enough.
fn refused(
    name: &'static str,
    sheet: &Sheet,
    (horizon, width): (u32, u32),
    listing_bytes: usize,
    answer: [u32; 3],
    records: &[Record],
) -> Vec<Case> {
    let into = |report_bytes| Case {
        name,
        edition: Edition::First,
        sheet: Vec::new(),
        horizon,
        width,
        listing_bytes,
        report_bytes,
        answer,
        records: records.to_vec(),
        report: Vec::new(),
    };
    let reports = [0, AMPLE].map(into).into_iter();
    let in_editions = |case: Case| case.over(sheet, &Edition::ALL);
    reports.flat_map(in_editions).collect()
}

/// The horizon is looked at first, then the width, and then the sheet, which has no node in half of these.
fn outside_their_ranges() -> Vec<Case> {
    let sheets = [worked_run::sheet(), Sheet::default()];
    let horizons = [0, 1_000_001, u32::MAX];
    let widths = [0, 10_001, u32::MAX];
    let mut cases = Vec::new();
    for (sheet, listing_bytes) in sheets.iter().flat_map(|sheet| [(sheet, 0), (sheet, AMPLE)]) {
        let mut refuse = |name, horizon, width, answer| {
            let asked = (horizon, width);
            cases.extend(refused(name, sheet, asked, listing_bytes, answer, &[]));
        };
        for horizon in horizons {
            refuse("the horizon alone", horizon, 4, [1, 0, 0]);
            for width in widths {
                refuse("the horizon before the width", horizon, width, [1, 0, 0]);
            }
        }
        for width in widths {
            refuse("the width", 12, width, [24, 0, 0]);
        }
    }
    let no_node = &sheets[1];
    for listing_bytes in [0, AMPLE] {
        let name = "the sheet after the width";
        let answer = [3, 0, 0];
        cases.extend(refused(name, no_node, (12, 4), listing_bytes, answer, &[]));
    }
    cases
}

/// A run that finds no room, or that is too crowded, gives no report, even if a pulse to report is listed.
fn no_whole_listing() -> Vec<Case> {
    let worked = worked_run::sheet();
    let no_room = |bytes, answer, records: &[Record]| {
        refused("no room", &worked, (12, 6), bytes, answer, records)
    };
    let mut modules = four_buffers();
    modules.push(constant(HIGH, 5, 5_000));
    let crowded = toggled(&modules);
    let each_tick: Vec<Record> = (0..1_024)
        .map(|tick: u32| (tick, 0, u8::from(tick.is_multiple_of(2)), tick + 1))
        .collect();
    let too_crowded = |bytes, answer, records: &[Record]| {
        refused("too crowded", &crowded, (10_000, 2), bytes, answer, records)
    };
    [
        no_room(59, [19, 11, 5], &worked_run::RECORDS_BEFORE_11),
        no_room(20, [19, 3, 2], &[(0, 0, 0, 3), (0, 1, 2, 3)]),
        no_room(0, [19, 0, 0], &[]),
        too_crowded(10_249, [20, 1_023, 1_024], &each_tick),
        too_crowded(10_239, [19, 1_023, 1_023], &each_tick[..1_023]),
    ]
    .concat()
}

/// Every sheet that its check refuses gets that refusal, before 19 and 25, and has no listing.
fn refused_by_their_check() -> Vec<Case> {
    let mut sheets = by_hand::cases();
    sheets.retain(|case| case.answer != by_hand::ACCEPTED);
    let asked = |bytes: usize| {
        sheets.iter().map(move |case| Case {
            name: case.name,
            edition: case.edition,
            sheet: case.sheet.clone(),
            horizon: 12,
            width: 4,
            listing_bytes: bytes,
            report_bytes: bytes,
            answer: case.answer,
            records: Vec::new(),
            report: Vec::new(),
        })
    };
    asked(0).chain(asked(AMPLE)).collect()
}

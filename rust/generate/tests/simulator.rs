//! The plain simulator held against document 01's statements, over many valid sheets.

use generate::ends::before;
use generate::limits::RECORD_BYTES;
use generate::sheets::{records, MEMORY};
use generate::{Generator, Size};
use plain::{
    in_set, join, renumbered, renumbered_listing, rule, Answer, Edition, Event, Module, Sheet,
    Timelines, UNKNOWN,
};

/// The byte that stands where nothing has been written.
const UNTOUCHED: u8 = 0xA5;

/// Room for every record of the sheets and horizons below.
const AMPLE: usize = RECORD_BYTES * 256 * 150;

/// Calls `judge` with sheets of several sizes, half of them with several drivers a node, a horizon that
/// runs, and the generator, for each edition.
fn over_valid_sheets(seed: u64, mut judge: impl FnMut(Edition, &mut Generator, &Sheet, u32)) {
    for edition in Edition::ALL {
        let mut generator = Generator::of(edition, seed);
        for round in 0..3_000 {
            let size = match round / 2 % 100 {
                0 => Size::Large,
                1..=4 => Size::Medium,
                5..=20 => Size::Tiny,
                _ => Size::Small,
            };
            let sheet = match round % 2 {
                0 => generator.valid(size),
                _ => generator.several_drivers(size),
            };
            let horizon = generator.horizon().clamp(1, 150);
            judge(edition, &mut generator, &sheet, horizon);
        }
    }
}

/// A run over a buffer of `length` untouched bytes, with the buffer as it is left.
fn run(edition: Edition, sheet: &Sheet, horizon: u32, length: usize) -> ([u32; 3], Vec<u8>) {
    let mut listing = vec![UNTOUCHED; length];
    let answer = plain::run(edition, &sheet.encode(edition), horizon, &mut listing);
    (answer.triple(), listing)
}

/// The records that the run of a sheet to the horizon lists, and nothing after them.
fn full_listing(edition: Edition, sheet: &Sheet, horizon: u32) -> Vec<u8> {
    let (answer, mut listing) = run(edition, sheet, horizon, AMPLE);
    let [0, 0, count] = answer else {
        panic!("refused {answer:?}: {sheet:?}");
    };
    listing.truncate(RECORD_BYTES * count as usize);
    listing
}

/// The cell that a set of timelines must have by the node's equation.
fn by_equation(sheet: &Sheet, cells: &[Vec<u8>], node: u8, tick: usize) -> u8 {
    let drivers = sheet.modules.iter().filter(|module| module.output == node);
    let given = drivers.map(|module| contribution(sheet, cells, module, tick));
    given
        .reduce(join)
        .unwrap_or_else(|| driven(&sheet.drive, node, tick))
}

/// What a module must contribute by its own equation.
fn contribution(sheet: &Sheet, cells: &[Vec<u8>], module: &Module, tick: usize) -> u8 {
    let initial = sheet.nodes[usize::from(module.output)];
    if tick < usize::from(module.delay) {
        return initial;
    }
    let seen = tick - usize::from(module.delay);
    let inputs = module.used_inputs().map(|node| &cells[usize::from(node)]);
    let inputs: Vec<&Vec<u8>> = inputs.collect();
    if let (MEMORY, [first, second]) = (module.kind, &inputs[..]) {
        let mut held = (0..=seen).filter(|&u| in_set(module.parameter, second[u]));
        held.next_back().map_or(initial, |u| first[u])
    } else {
        let values: Vec<u8> = inputs.iter().map(|cells| cells[seen]).collect();
        rule(module.kind, module.parameter, &values)
    }
}

fn driven(drive: &[Event], node: u8, tick: usize) -> u8 {
    let begun = |event: &&Event| event.node == node && event.tick as usize <= tick;
    let latest = drive.iter().filter(begun).max_by_key(|event| event.tick);
    latest.map_or(UNKNOWN, |event| event.value)
}

#[test]
fn cells_satisfy_every_equation() {
    over_valid_sheets(20, |_, _, sheet, horizon| {
        let Timelines {
            cells,
            contributions,
        } = plain::timelines(sheet, horizon);
        assert_eq!(cells.len(), sheet.nodes.len());
        for (node, timeline) in sheet.node_numbers().zip(&cells) {
            assert_eq!(timeline.len(), horizon as usize);
            for (tick, &cell) in timeline.iter().enumerate() {
                let expected = by_equation(sheet, &cells, node, tick);
                assert_eq!(cell, expected, "node {node}, tick {tick}: {sheet:?}");
            }
        }
        assert_eq!(contributions.len(), sheet.modules.len());
        for (module, timeline) in sheet.modules.iter().zip(&contributions) {
            assert_eq!(timeline.len(), horizon as usize);
            for (tick, &given) in timeline.iter().enumerate() {
                let expected = contribution(sheet, &cells, module, tick);
                assert_eq!(given, expected, "{module:?}, tick {tick}: {sheet:?}");
            }
        }
    });
}

#[test]
fn pending_changes_as_stated() {
    over_valid_sheets(21, |_, _, sheet, horizon| {
        let timelines = plain::timelines(sheet, horizon);
        let pending = plain::pending(sheet, &timelines);
        assert_eq!(pending.len(), horizon as usize);
        for (t, &count) in pending.iter().enumerate() {
            let of_module = |(module, given): (&Module, &Vec<u8>)| {
                let last = (t + usize::from(module.delay)).min(horizon as usize - 1);
                (t + 1..=last).filter(|&u| given[u] != given[u - 1]).count()
            };
            let modules = sheet.modules.iter().zip(&timelines.contributions);
            let expected: usize = modules.map(of_module).sum();
            assert_eq!(count, expected, "after tick {t}: {sheet:?}");
        }
    });
}

#[test]
fn the_listing_gives_the_watched_cells_back() {
    over_valid_sheets(22, |edition, _, sheet, horizon| {
        let cells = plain::cells(sheet, horizon);
        let records = records(&full_listing(edition, sheet, horizon));
        let keys: Vec<(u32, u8)> = records
            .iter()
            .map(|&(tick, node, ..)| (tick, node))
            .collect();
        assert!(keys.is_sorted_by(|one, next| one < next), "{sheet:?}");
        for &node in &sheet.watched {
            let mut own = records.iter().filter(|record| record.1 == node).peekable();
            let mut value = None;
            for (tick, &cell) in (0..).zip(&cells[usize::from(node)]) {
                if let Some(&(_, _, new, _)) = own.next_if(|record| record.0 == tick) {
                    assert_ne!(value, Some(new), "no change at {tick}: {sheet:?}");
                    value = Some(new);
                }
                assert_eq!(value, Some(cell), "node {node}, tick {tick}: {sheet:?}");
            }
            assert_eq!(own.next(), None);
        }
        assert!(records
            .iter()
            .all(|record| sheet.watched.contains(&record.1)));
    });
}

#[test]
fn a_short_buffer_takes_whole_ticks() {
    let mut refused = 0;
    over_valid_sheets(23, |edition, generator, sheet, horizon| {
        let listing = full_listing(edition, sheet, horizon);
        let length = generator.buffer_length();
        let (answer, left) = run(edition, sheet, horizon, length);
        let all = records(&listing);
        // The first record without room names the tick; that tick's records are left out.
        let (number, place, expected) = match all.get(length / RECORD_BYTES) {
            None => (0, 0, all),
            Some(&(tick, ..)) => {
                refused += 1;
                (19, tick, before(tick, &all))
            }
        };
        let count = expected.len() as u32;
        assert_eq!(answer, [number, place, count], "{length} bytes: {sheet:?}");
        let (written, rest) = left.split_at(RECORD_BYTES * expected.len());
        assert_eq!(records(written), expected, "{length} bytes: {sheet:?}");
        assert!(rest.iter().all(|&byte| byte == UNTOUCHED));
    });
    assert!(refused >= 200, "{refused} were refused");
}

#[test]
fn renumbered_sheets_run_alike() {
    over_valid_sheets(24, |edition, generator, sheet, horizon| {
        let to = generator.permutation(sheet.nodes.len());
        let order = generator.order(sheet.modules.len());
        let other = renumbered(sheet, &to, &order);
        assert_eq!(
            plain::check(edition, &other.encode(edition)),
            Answer::Ran { count: 0 }
        );
        let (ours, theirs) = (plain::cells(sheet, horizon), plain::cells(&other, horizon));
        for (node, cells) in sheet.node_numbers().zip(&ours) {
            let number = to[usize::from(node)];
            assert_eq!(cells, &theirs[usize::from(number)], "{sheet:?}");
        }
        let listing = full_listing(edition, sheet, horizon);
        let expected = renumbered_listing(&listing, &to);
        assert_eq!(
            full_listing(edition, &other, horizon),
            expected,
            "{sheet:?}"
        );
    });
}

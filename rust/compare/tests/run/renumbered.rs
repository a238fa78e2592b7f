//! Sheets with their nodes renumbered and their modules listed in any order.

use compare::{count, seed};
use generate::drivers::has_several_drivers;
use generate::sheets::*;
use generate::{room_for_all, Generator, Size};
use plain::{
    read, renumbered, renumbered_listing, Edition, Module, Sheet, INPUT, LOW, NONE, UNKNOWN,
};

use crate::agreed::proved;

/// What a stream of renumbered runs met.
#[derive(Debug, Default)]
struct Met {
    finished: u64,
    full_buffers: u64,
    crowded: u64,
    /// Listings that change when they are renumbered.
    moved: u64,
    /// Those of them of sheets with several drivers a node.
    moved_of_several_drivers: u64,
}

impl Met {
    fn add(&mut self, number: u32, has_moved: bool, sheet: &Sheet) {
        match number {
            0 => self.finished += 1,
            19 => self.full_buffers += 1,
            20 => self.crowded += 1,
            other => panic!("an accepted sheet is refused with {other}"),
        }
        self.moved += u64::from(has_moved);
        self.moved_of_several_drivers += u64::from(has_moved && has_several_drivers(sheet));
    }
}

/// An accepted sheet and a horizon at which it can be run quickly.
fn accepted(edition: Edition, generator: &mut Generator) -> (Sheet, u32) {
    loop {
        let input = generator.run_input();
        let in_range = (1..=10_000).contains(&input.horizon);
        if let (true, Ok(sheet)) = (in_range, read(edition, &input.sheet)) {
            return (sheet, input.horizon);
        }
    }
}

/// A sheet N, and how P is made from it.
struct Renumbering<'a> {
    edition: Edition,
    sheet: &'a Sheet,
    /// The new number of each node.
    to: Vec<u8>,
    /// The listed order of the modules.
    order: Vec<usize>,
}

impl Renumbering<'_> {
    /// Runs N and P in buffers of one length: the answers are equal, and P's listing is N's
    /// renumbered and sorted again. This holds for the records that 19 and 20 leave, too, for
    /// both end at the same tick. Gives the number of the answer, and whether the listing moved.
    fn run_alike(&self, horizon: u32, length: usize, whence: &str) -> (u32, bool) {
        let Renumbering {
            edition,
            sheet,
            to,
            order,
        } = self;
        let other = renumbered(sheet, to, order);
        let [n, p] = [*sheet, &other].map(|sheet| {
            let bytes = sheet.encode(*edition);
            proved(*edition, &bytes, horizon, length, whence)
        });
        assert_eq!(n.answer, p.answer, "{whence}: {sheet:?} {to:?} {order:?}");
        let expected = renumbered_listing(&n.listing, to);
        assert_eq!(p.listing, expected, "{whence}: {sheet:?} {to:?} {order:?}");
        (n.answer[0], expected != n.listing)
    }
}

/// A random renumbering, run alike in a buffer of some sort.
fn run_alike(
    edition: Edition,
    generator: &mut Generator,
    sheet: &Sheet,
    horizon: u32,
    whence: &str,
) -> (u32, bool) {
    let bytes = sheet.encode(edition);
    let whole = room_for_all(edition, &bytes, horizon);
    let [.., records] = proved(edition, &bytes, horizon, whole, whence).answer;
    let room = generator.room();
    let length = generator.bytes_of(room, records as usize);
    let renumbering = Renumbering {
        edition,
        sheet,
        to: generator.permutation(sheet.nodes.len()),
        order: generator.order(sheet.modules.len()),
    };
    renumbering.run_alike(horizon, length, whence)
}

fn generated(edition: Edition) {
    let seed = seed();
    let mut generator = Generator::of(edition, seed);
    let mut met = Met::default();
    for place in 0..count(30_000) {
        let (sheet, horizon) = accepted(edition, &mut generator);
        let whence = format!("{edition:?}, seed {seed}, sheet {place}");
        let (number, has_moved) = run_alike(edition, &mut generator, &sheet, horizon, &whence);
        met.add(number, has_moved, &sheet);
    }
    println!("{edition:?}, seed {seed}: {met:?}");
    assert!(met.finished >= 10_000, "seed {seed}: {met:?}");
    assert!(met.full_buffers >= 1_000, "seed {seed}: {met:?}");
    assert!(met.crowded >= 100, "seed {seed}: {met:?}");
    assert!(met.moved >= 10_000, "seed {seed}: {met:?}");
    let of_several_drivers = met.moved_of_several_drivers;
    assert!(of_several_drivers >= 3_000, "seed {seed}: {met:?}");
}

#[test]
fn generated_sheets_renumbered() {
    generated(Edition::First);
}

#[test]
fn generated_sheets_of_the_second_edition_renumbered() {
    generated(Edition::Second);
}

/// One sheet of each size, and some with several drivers a node, in many orders.
#[test]
fn many_orders_of_one_sheet() {
    let seed = 6;
    for edition in Edition::ALL {
        let mut generator = Generator::of(edition, seed);
        let sizes = [Size::Small, Size::Medium, Size::Large, Size::Full];
        let mut sheets = sizes.map(|size| generator.valid(size)).to_vec();
        sheets.extend([Size::Small, Size::Medium].map(|size| generator.several_drivers(size)));
        sheets.push(generator.longest());
        for sheet in sheets {
            for place in 0..50 {
                let nodes = sheet.nodes.len();
                let whence = format!("{edition:?}, seed {seed}, {nodes} nodes, order {place}");
                run_alike(edition, &mut generator, &sheet, 60, &whence);
            }
        }
    }
}

/// Every list of the places below `length`, each once.
fn permutations(length: usize) -> Vec<Vec<usize>> {
    if length == 0 {
        return vec![Vec::new()];
    }
    let with_last = |shorter: Vec<usize>| {
        (0..length).map(move |place| {
            let mut longer = shorter.clone();
            longer.insert(place, length - 1);
            longer
        })
    };
    let shorter = permutations(length - 1).into_iter();
    shorter.flat_map(with_last).collect()
}

/// Modules over one input, every node watched: every numbering of the nodes with every listed order of the
/// modules.
fn every_renumbering(edition: Edition, nodes: &[u8], modules: &[Module]) {
    let drive = [(0, 0, 0), (4, 0, 1), (8, 0, 0), (9, 0, 1)];
    let watched: Vec<u8> = (0..).take(nodes.len()).collect();
    let sheet = sheet(nodes, modules, &drive, &watched);
    let length = room_for_all(edition, &sheet.encode(edition), 20);
    let mut moved = 0;
    let [numberings, orders] = [nodes.len(), modules.len()].map(permutations);
    for to in &numberings {
        let to: Vec<u8> = to.iter().map(|&number| number as u8).collect();
        for order in &orders {
            let renumbering = Renumbering {
                edition,
                sheet: &sheet,
                to: to.clone(),
                order: order.clone(),
            };
            let (number, has_moved) = renumbering.run_alike(20, length, "every renumbering");
            assert_eq!(number, 0);
            moved += usize::from(has_moved);
        }
    }
    // No two nodes have the same cells, so only one numbering leaves the listing as it is.
    assert_eq!(moved, (numberings.len() - 1) * orders.len());
}

/// An input and four driven nodes.
const FIVE_NODES: [u8; 5] = [INPUT, LOW, LOW, UNKNOWN, LOW];

/// Gates and a memory without delay, one after the other, and a delayed gate back to the first.
#[test]
fn every_renumbering_of_one_sheet() {
    let modules = [
        gate(XOR, [0, 4], 1, 0),
        gate(INVERTER, [1, 0], 2, 0),
        memory(0b0010, [0, 2], 3, 0),
        gate(NAND, [3, 0], 4, 2),
    ];
    for edition in Edition::ALL {
        every_renumbering(edition, &FIVE_NODES, &modules);
    }
}

/// A bus that two inverters without delay drive in turn and a buffer with a delay as well. Two memories, equal
/// records, catch it without delay, and the buffer reads what they hold.
#[test]
fn every_renumbering_of_a_bus() {
    let caught = memory(0b0010, [1, 3], 2, 0);
    let modules = [
        gate(CLOCKED_INVERTER, [0, 0], 1, 0),
        gate(CLOCKED_INVERTER, [0, 3], 1, 0),
        gate(BUFFER, [2], 1, 2),
        caught,
        caught,
        gate(INVERTER, [0], 3, 0),
    ];
    for edition in Edition::ALL {
        every_renumbering(edition, &[INPUT, NONE, UNKNOWN, LOW], &modules);
    }
}

/// The same with gates of three inputs: without delay, third inputs alone say what comes first.
#[test]
fn every_renumbering_by_third_inputs() {
    let modules = [
        gate(NOR_3, [0, 0, 4], 1, 0),
        gate(OR_3, [4, 4, 1], 2, 0),
        gate(MULTIPLEXER, [0, 4, 2], 3, 0),
        gate(XOR_3, [0, 2, 3], 4, 2),
    ];
    every_renumbering(Edition::Second, &FIVE_NODES, &modules);
}

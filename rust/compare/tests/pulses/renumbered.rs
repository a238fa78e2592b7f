//! Reports of sheets with their nodes renumbered and their modules listed in any order.

use compare::{count, seed};
use generate::limits::{GREATEST_WIDTH, LAST_HORIZON};
use generate::sheets::{pulses, Pulse};
use generate::{Generator, PulsesInput};
use plain::{read, renumbered, renumbered_listing, Edition, Sheet};

use crate::agreed::{proved, Given};
use crate::rooms::rooms;

/// What is asked of an accepted sheet, whose horizon and width are in their ranges, and the sheet.
fn accepted(edition: Edition, generator: &mut Generator) -> (PulsesInput, Sheet) {
    loop {
        let input = generator.pulses_input();
        let in_range = (1..=LAST_HORIZON).contains(&input.run.horizon)
            && (1..=GREATEST_WIDTH).contains(&input.width);
        if let (true, Ok(sheet)) = (in_range, read(edition, &input.run.sheet)) {
            return (input, sheet);
        }
    }
}

/// The report with only its node numbers changed, sorted by start tick, then by node.
fn renumbered_report(report: &[u8], to: &[u8]) -> Vec<Pulse> {
    let renumber = |(start, node, length): Pulse| (start, to[usize::from(node)], length);
    let mut pulses: Vec<Pulse> = pulses(report).into_iter().map(renumber).collect();
    pulses.sort_unstable();
    pulses
}

/// What a stream of renumbered reports met.
#[derive(Debug, Default)]
struct Met {
    finished: u64,
    short_reports: u64,
    refused_by_the_run: u64,
    /// Reports that change when they are renumbered.
    moved: u64,
}

impl Met {
    fn add(&mut self, number: u32, has_moved: bool) {
        match number {
            0 => self.finished += 1,
            25 => self.short_reports += 1,
            19 | 20 => self.refused_by_the_run += 1,
            other => panic!("an accepted sheet is refused with {other}"),
        }
        self.moved += u64::from(has_moved);
    }
}

/// N and P in buffers of the same lengths: the answers are equal, and P's listing and report are N's
/// renumbered and sorted again. Gives the number, and whether the report moved.
fn reported_alike(
    edition: Edition,
    generator: &mut Generator,
    (n, sheet): (PulsesInput, Sheet),
    whence: &str,
) -> (u32, bool) {
    let to = generator.permutation(sheet.nodes.len());
    let order = generator.order(sheet.modules.len());
    let mut p = n.clone();
    p.run.sheet = renumbered(&sheet, &to, &order).encode(edition);
    let bytes = rooms(generator, edition, &n).bytes;
    let [n, p] = [n, p].map(|input| proved(&Given::new(edition, &input, bytes), whence));
    let whence = || format!("{whence}: {sheet:?} {to:?} {order:?}");
    assert_eq!(p.answer, n.answer, "{}", whence());
    let expected = renumbered_listing(&n.listing, &to);
    assert_eq!(p.listing, expected, "{}", whence());
    let expected = renumbered_report(&n.report, &to);
    assert_eq!(pulses(&p.report), expected, "{}", whence());
    (n.answer[0], pulses(&n.report) != expected)
}

fn generated(edition: Edition) {
    let seed = seed();
    let mut generator = Generator::of(edition, seed);
    let mut met = Met::default();
    for place in 0..count(30_000) {
        let given = accepted(edition, &mut generator);
        let whence = format!("{edition:?}, seed {seed}, sheet {place}");
        let (number, has_moved) = reported_alike(edition, &mut generator, given, &whence);
        met.add(number, has_moved);
    }
    println!("{edition:?}, seed {seed}: {met:?}");
    assert!(met.finished >= 10_000, "seed {seed}: {met:?}");
    assert!(met.short_reports >= 2_000, "seed {seed}: {met:?}");
    assert!(met.refused_by_the_run >= 1_000, "seed {seed}: {met:?}");
    assert!(met.moved >= 3_000, "seed {seed}: {met:?}");
}

#[test]
fn generated_sheets_renumbered() {
    generated(Edition::First);
}

#[test]
fn generated_sheets_of_the_second_edition_renumbered() {
    generated(Edition::Second);
}

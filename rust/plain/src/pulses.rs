//! Document 02, W-208: the pulses of watched nodes that are too short for a coil, looked for in the cells.

use crate::answer::Answer;
use crate::edition::Edition;
use crate::listing::{horizon_in_range, list, settled};
use crate::sheet::Sheet;
use crate::whole::put_if_it_fits;

/// A longest stretch of equal cells that starts after tick 0 and is ended by a change below the horizon.
struct Pulse {
    start: u32,
    node: u8,
    length: u32,
}

impl Pulse {
    fn to_bytes(&self) -> [u8; 9] {
        let [s0, s1, s2, s3] = self.start.to_le_bytes();
        let [l0, l1, l2, l3] = self.length.to_le_bytes();
        [s0, s1, s2, s3, self.node, l0, l1, l2, l3]
    }
}

/// Runs the sheet to the horizon over `listing` and writes the watched nodes' pulses that are shorter than
/// the width to the front of `report`. The answer is their count, or refusal 1, then 24, then the run's,
/// then 25.
pub fn pulses(
    edition: Edition,
    sheet: &[u8],
    horizon: u32,
    width: u32,
    listing: &mut [u8],
    report: &mut [u8],
) -> Answer {
    match short_pulses(edition, sheet, horizon, width, listing) {
        Ok((pulses, listed)) => put(&pulses, listed, report),
        Err(refusal) => refusal,
    }
}

/// The pulses to report of a run that reaches its horizon, and its count of records.
fn short_pulses(
    edition: Edition,
    sheet: &[u8],
    horizon: u32,
    width: u32,
    listing: &mut [u8],
) -> Result<(Vec<Pulse>, u32), Answer> {
    horizon_in_range(horizon)?;
    width_in_range(width)?;
    let (sheet, timelines) = settled(edition, sheet, horizon)?;
    let answer = list(&sheet, &timelines, horizon, listing);
    let Answer::Ran { count } = answer else {
        return Err(answer);
    };
    let starts = 1..horizon;
    let pulses = starts.flat_map(|start| pulses_from(&sheet, &timelines.cells, start));
    let short = pulses.filter(|pulse| pulse.length < width);
    Ok((short.collect(), count))
}

/// Refusal 24.
fn width_in_range(width: u32) -> Result<(), Answer> {
    match width {
        1..=10_000 => Ok(()),
        _ => Err(Answer::unread(24, 0)),
    }
}

/// The pulses that start at a tick above 0. The watched nodes rise, so the pulses do.
fn pulses_from<'a>(
    sheet: &'a Sheet,
    cells: &'a [Vec<u8>],
    start: u32,
) -> impl Iterator<Item = Pulse> + 'a {
    sheet.watched.iter().filter_map(move |&node| {
        let length = length_from(&cells[usize::from(node)], start as usize)?;
        Some(Pulse {
            start,
            node,
            length,
        })
    })
}

/// How many cells of a timeline, from a tick above 0 on, are equal, where the one before them is another
/// and so is one after them.
fn length_from(timeline: &[u8], start: usize) -> Option<u32> {
    let value = timeline[start];
    if timeline[start - 1] == value {
        return None;
    }
    let length = timeline[start..].iter().position(|&cell| cell != value)?;
    Some(u32::try_from(length).expect("it ends below the horizon"))
}

/// Writes the report, or refuses it by 25 after a run of so many records.
fn put(pulses: &[Pulse], listed: u32, report: &mut [u8]) -> Answer {
    let bytes: Vec<u8> = pulses.iter().flat_map(Pulse::to_bytes).collect();
    let count = u32::try_from(pulses.len()).expect("256 nodes at 1,000,000 ticks have fewer");
    if put_if_it_fits(&bytes, report) {
        Answer::Ran { count }
    } else {
        Answer::Refused {
            number: 25,
            place: count,
            count: listed,
        }
    }
}

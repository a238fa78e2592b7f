//! A run to its horizon: the listing, and refusals 1, 19 and 20.

use crate::answer::Answer;
use crate::cells::{timelines, Timelines};
use crate::edition::Edition;
use crate::pending::pending;
use crate::read::read;
use crate::record::Record;
use crate::sheet::Sheet;

/// Runs the sheet to the horizon and writes its records to the front of `listing`.
pub fn run(edition: Edition, sheet: &[u8], horizon: u32, listing: &mut [u8]) -> Answer {
    match settled(edition, sheet, horizon) {
        Ok((sheet, timelines)) => list(&sheet, &timelines, horizon, listing),
        Err(refusal) => refusal,
    }
}

/// The sheet and its timelines up to the horizon, or the refusal met before the first tick.
pub(crate) fn settled(
    edition: Edition,
    sheet: &[u8],
    horizon: u32,
) -> Result<(Sheet, Timelines), Answer> {
    horizon_in_range(horizon)?;
    let sheet = read(edition, sheet)?;
    let timelines = timelines(&sheet, horizon);
    Ok((sheet, timelines))
}

/// Refusal 1.
pub(crate) fn horizon_in_range(horizon: u32) -> Result<(), Answer> {
    match horizon {
        1..=1_000_000 => Ok(()),
        _ => Err(Answer::unread(1, 0)),
    }
}

/// Nothing is written before it is known which ticks are listed, for no end lies past them.
pub(crate) fn list(
    sheet: &Sheet,
    timelines: &Timelines,
    horizon: u32,
    listing: &mut [u8],
) -> Answer {
    let answer = answer(sheet, timelines, listing.len() / Record::BYTES);
    let bound = bound(answer, horizon);
    let cells = &timelines.cells;
    let records = (0..bound).flat_map(|tick| records_at(sheet, cells, tick, bound));
    let mut places = listing.chunks_exact_mut(Record::BYTES);
    for record in records {
        let place = places.next().expect("every listed tick found room");
        place.copy_from_slice(&record.to_bytes());
    }
    answer
}

/// What a run answers whose buffer has room for so many records.
fn answer(sheet: &Sheet, timelines: &Timelines, room: usize) -> Answer {
    let mut count = 0;
    for (tick, pending) in (0..).zip(pending(sheet, timelines)) {
        let records = listed_at(sheet, &timelines.cells, tick).count();
        if count + records > room {
            return refused(19, tick, count);
        }
        count += records;
        if pending > 4_096 {
            return refused(20, tick, count);
        }
    }
    Answer::Ran { count: word(count) }
}

/// The ticks below it are listed, and a value that still lasts ends at it: the horizon, the tick
/// refused by 19, or the tick after the one refused by 20, which is itself listed.
fn bound(answer: Answer, horizon: u32) -> u32 {
    match answer {
        Answer::Refused {
            number: 19, place, ..
        } => place,
        Answer::Refused {
            number: 20, place, ..
        } => place + 1,
        _ => horizon,
    }
}

/// The watched nodes that have a record at the tick: at tick 0 all of them.
fn listed_at<'a>(
    sheet: &'a Sheet,
    cells: &'a [Vec<u8>],
    tick: u32,
) -> impl Iterator<Item = u8> + 'a {
    let watched = sheet.watched.iter().copied();
    watched.filter(move |&node| tick == 0 || changes_at(&cells[usize::from(node)], tick))
}

/// The records of one tick. The watched nodes rise, so the records do.
fn records_at(sheet: &Sheet, cells: &[Vec<u8>], tick: u32, bound: u32) -> Vec<Record> {
    let record = |node: u8| {
        let timeline = &cells[usize::from(node)];
        Record {
            tick,
            node,
            value: timeline[tick as usize],
            end: end(timeline, tick, bound),
        }
    };
    listed_at(sheet, cells, tick).map(record).collect()
}

/// The tick of the next change below the bound, or the bound if there is none.
fn end(timeline: &[u8], tick: u32, bound: u32) -> u32 {
    let mut later = tick + 1..bound;
    later.find(|&t| changes_at(timeline, t)).unwrap_or(bound)
}

/// Whether the cell of a tick above 0 differs from the cell before.
fn changes_at(timeline: &[u8], tick: u32) -> bool {
    let t = tick as usize;
    timeline[t] != timeline[t - 1]
}

fn refused(number: u32, place: u32, count: usize) -> Answer {
    Answer::Refused {
        number,
        place,
        count: word(count),
    }
}

fn word(count: usize) -> u32 {
    u32::try_from(count).expect("256 nodes at 1,000,000 ticks are fewer")
}

//! What a refusal's place is: the section, the record, its name and its line.

use timing::{Edition, Place, Refusal};

use crate::card::Card;
use crate::contents::{Event, Module, Section, COUNT_BYTES};

/// A part of a sheet's bytes.
#[derive(Debug, Clone, Copy, PartialEq, Eq)]
pub enum Part {
    Count(Section),
    /// A record of a section, from 0.
    Record(Section, usize),
    /// Past the last section.
    End,
}

/// The part that a byte of the sheet belongs to, or would belong to if the sheet did not end before it.
pub fn part_at(edition: Edition, sheet: &[u8], byte: usize) -> Part {
    let mut start = 0;
    for section in Section::ALL {
        let records = start + COUNT_BYTES;
        let count = match sheet.get(start..records) {
            _ if section == Section::End => return Part::End,
            Some(&[low, high]) if byte >= records => u16::from_le_bytes([low, high]),
            _ => return Part::Count(section),
        };
        let size = section.record_bytes(edition);
        let end = records + usize::from(count) * size;
        if byte < end {
            return Part::Record(section, (byte - records) / size);
        }
        start = end;
    }
    Part::End
}

/// What the place of a card's refusal is, in words. Of some refusals it says nothing that the number does not.
pub fn place(card: &Card, file: &str, refusal: &Refusal) -> Option<String> {
    let part = match refusal.sort() {
        Place::Byte(byte) => part_at(card.edition, &card.sheet, byte as usize),
        Place::Node(node) => Part::Record(Section::Nodes, node as usize),
        Place::Tick(tick) => return Some(format!("tick {tick} of the run")),
        Place::Length(_) | Place::Pulses(_) | Place::Nowhere => return None,
    };
    Some(match part {
        Part::Count(section) => format!("the count of {}", section.records()),
        Part::End => "the end, after the watched nodes".to_string(),
        Part::Record(section, record) => {
            let name = record_name(card, section, record)
                .map_or_else(String::new, |name| format!(" ({name})"));
            let line = card
                .line(section, record)
                .map_or_else(String::new, |line| format!(", line {line} of {file}"));
            format!("{}, record {record}{name}{line}", section.name())
        }
    })
}

/// What a record is called: its node's name, and of an event also its tick. A record that is not there whole
/// has none.
fn record_name(card: &Card, section: Section, record: usize) -> Option<String> {
    let bytes = record_bytes(card, section, record)?;
    match section {
        Section::Nodes => card.names.get(record).cloned(),
        Section::Modules => Some(card.name(Module::from_bytes(bytes).output)),
        Section::Drive => {
            let Event { tick, node, .. } = Event::from_bytes(bytes);
            Some(format!("{} at tick {tick}", card.name(node)))
        }
        Section::Watched => Some(card.name(bytes[0])),
        Section::End => None,
    }
}

/// The bytes of a record, if all are there.
fn record_bytes(card: &Card, wanted: Section, record: usize) -> Option<&[u8]> {
    let mut start = 0;
    for section in Section::ALL {
        let count = card.sheet.get(start..start + COUNT_BYTES)?;
        let count = usize::from(u16::from_le_bytes(count.try_into().ok()?));
        let size = section.record_bytes(card.edition);
        let records = start + COUNT_BYTES;
        if section == wanted {
            let at = records + record * size;
            return card.sheet.get(at..at + size);
        }
        start = records + count * size;
    }
    None
}

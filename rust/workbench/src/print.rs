//! Listings and reports with the nodes' names.

use std::io::{self, Write};

use timing::{Pulse, Record};

use crate::card::Card;

/// A line for each record: tick, name, value, end.
pub fn listing(
    card: &Card,
    records: impl IntoIterator<Item = Record>,
    out: &mut dyn Write,
) -> io::Result<()> {
    for record in records {
        let name = &card.names[usize::from(record.node)];
        let Record {
            tick, value, end, ..
        } = record;
        writeln!(out, "{tick} {name} {value} {end}")?;
    }
    Ok(())
}

/// A line for each pulse: start, name, length.
pub fn pulses(card: &Card, pulses: &[Pulse], out: &mut dyn Write) -> io::Result<()> {
    for pulse in pulses {
        let name = &card.names[usize::from(pulse.node)];
        writeln!(out, "{} {name} {}", pulse.start, pulse.length)?;
    }
    Ok(())
}

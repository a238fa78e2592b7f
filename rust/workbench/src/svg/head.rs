//! The head of the picture: which card it shows, which run, and which part of it.

use std::io::{self, Write};

use super::columns::MARGIN;
use super::scale::Cut;
use super::text::{self, grouped, Text, MONOSPACE, SIZE};
use crate::run::Run;
use crate::sha256::{hex, sha256};

/// From the picture's top to the line under the head.
pub const HEIGHT: u32 = 104;

/// The line of a sentence under the head.
pub const BELOW: u32 = HEIGHT + 28;

const TITLE_SIZE: u32 = 24;

/// The lines that the texts stand on.
const TITLE: u32 = 42;
const FACTS: u32 = 68;
const DIGEST: u32 = 91;

pub fn write(run: &Run, cut: Cut, width: u32, out: &mut dyn Write) -> io::Result<()> {
    let [left, right] = [MARGIN, width - MARGIN];
    let font = text::monospace(run.title, TITLE_SIZE, right - left);
    let title = Text {
        x: left,
        y: TITLE,
        size: TITLE_SIZE,
        look: &format!(" font-weight=\"bold\"{font}"),
        words: run.title,
    };
    let facts = facts(run, cut);
    let facts = Text::sentence(left, FACTS, &facts);
    let version = format!("Library: timing {}", timing::VERSION);
    let version = Text {
        look: " text-anchor=\"end\"",
        ..Text::sentence(right, FACTS, &version)
    };
    let digest = hex(&sha256(run.sheet));
    writeln!(out, "<g class=\"head\">")?;
    write!(out, "{title}{facts}{version}")?;
    writeln!(
        out,
        "<text x=\"{left}\" y=\"{DIGEST}\" font-size=\"{SIZE}\">SHA-256 of the sheet's bytes: \
         <tspan font-family=\"{MONOSPACE}\">{digest}</tspan></text>"
    )?;
    writeln!(
        out,
        "<path stroke=\"#000\" d=\"M{left} {HEIGHT}H{right}\"/>"
    )?;
    writeln!(out, "</g>")
}

fn facts(run: &Run, cut: Cut) -> String {
    let shown = match (cut.from, cut.to == run.horizon) {
        (0, true) => "The whole run".to_string(),
        _ => {
            let [from, to] = [cut.from, cut.to].map(|tick| grouped(tick.into()));
            format!("Cut: ticks {from} to {to}")
        }
    };
    let horizon = grouped(run.horizon.into());
    let ticks = if run.horizon == 1 { "tick" } else { "ticks" };
    let records = grouped(run.listing.len() as u64);
    format!("Horizon: {horizon} {ticks} · Records in the listing: {records} · {shown}")
}

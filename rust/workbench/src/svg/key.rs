//! The key under the lanes: what each sort of line, box and block means.

use std::io::{self, Write};

use timing::Level;

use super::band;
use super::columns::MARGIN;
use super::lane::Lane;
use super::scale::Across;
use super::text::Text;

/// A sample's width and height, and the room up to its words.
const SAMPLE: u32 = 36;
const WAVE: u32 = 14;
const GAP: u32 = 8;

/// From one sample to the next.
const PITCH: u32 = 150;

/// From the lanes to the key, and from its first line to its second.
const ABOVE: u32 = 22;
const LINE: u32 = 26;

/// Under the key.
const BELOW: u32 = 20;

const VALUES: [(Level, &str); 4] = [
    (Level::High, "1, high"),
    (Level::Low, "0, low"),
    (Level::Unknown, "X, unknown"),
    (Level::None, "Z, no value"),
];

const CLOSE: &str =
    "Grey: changes too close to be drawn apart. --from and --to cut the picture, and a shorter cut shows them.";

pub fn height(has_close: bool) -> u32 {
    let lines = 1 + u32::from(has_close);
    ABOVE + lines * LINE + BELOW
}

/// Writes the key under lanes that end at `bottom`.
pub fn write(bottom: u32, has_close: bool, out: &mut dyn Write) -> io::Result<()> {
    let top = bottom + ABOVE;
    writeln!(out, "<g class=\"key\">")?;
    for (left, (value, words)) in (MARGIN..).step_by(PITCH as usize).zip(VALUES) {
        sample(
            left,
            top,
            words,
            |lane, from, to| lane.value(value, from, to),
            out,
        )?;
    }
    if has_close {
        sample(MARGIN, top + LINE, CLOSE, Lane::block, out)?;
    }
    writeln!(out, "</g>")
}

/// A sample and its words.
fn sample(
    left: u32,
    top: u32,
    words: &str,
    draw: impl FnOnce(&mut Lane, Across, Across),
    out: &mut dyn Write,
) -> io::Result<()> {
    let mut lane = Lane::new(WAVE);
    draw(
        &mut lane,
        Across::pixels(left),
        Across::pixels(left + SAMPLE),
    );
    let text = Text::sentence(left + SAMPLE + GAP, top + WAVE - 2, words);
    band(left, top, SAMPLE, WAVE, out)?;
    writeln!(out, "<g transform=\"translate(0 {top})\">")?;
    lane.write(out)?;
    writeln!(out, "</g>")?;
    write!(out, "{text}")
}

//! A node's name at the left of its lane.

use std::io::{self, Write};

use super::text::{self, Text};

/// Where there is room, a name that is wider than this has two lines.
const ROOMY_SIZE: u32 = 16;
const TWO_LINES_SIZE: u32 = 12;
const ROOMY_WIDTH: u32 = 280;

/// Where there is not, a name has one line, of 64 letters at the most.
const TIGHT_SIZE: u32 = 13;
const TIGHT_WIDTH: u32 = 520;

/// A name as it is written.
pub struct Name<'a> {
    lines: Vec<&'a str>,
    size: u32,
    /// Wider lines are pressed together.
    limit: u32,
}

impl<'a> Name<'a> {
    pub fn of(name: &'a str, is_roomy: bool) -> Name<'a> {
        let (lines, size, limit) = match is_roomy {
            false => (vec![name], TIGHT_SIZE, TIGHT_WIDTH),
            true if text::width(name, ROOMY_SIZE) <= ROOMY_WIDTH => {
                (vec![name], ROOMY_SIZE, ROOMY_WIDTH)
            }
            true => {
                let (first, second) = name.split_at(middle(name));
                (vec![first, second], TWO_LINES_SIZE, ROOMY_WIDTH)
            }
        };
        Name { lines, size, limit }
    }

    pub fn width(&self) -> u32 {
        let widths = self.lines.iter().map(|line| text::width(line, self.size));
        widths.max().unwrap_or(0).min(self.limit)
    }

    /// Writes the name so that it ends at `right`, and has its middle at the height `middle`.
    pub fn write(&self, right: u32, middle: u32, out: &mut dyn Write) -> io::Result<()> {
        let size = self.size;
        let line = size + 2;
        // The middle of a letter is about a third of its size above the line that it stands on.
        let above = (self.lines.len() as u32 - 1) * line / 2;
        let first = (middle + size * 7 / 20).saturating_sub(above);
        for (y, words) in (first..).step_by(line as usize).zip(&self.lines) {
            let font = text::monospace(words, size, self.limit);
            let look = &format!(" text-anchor=\"end\"{font}");
            let x = right;
            let text = Text {
                x,
                y,
                size,
                look,
                words,
            };
            write!(out, "{text}")?;
        }
        Ok(())
    }
}

/// Where a name is broken: as near to its middle as it has a sign between words, if that is in the middle
/// third, and else in the middle.
fn middle(name: &str) -> usize {
    let letters = name.chars().count();
    // Each place after a letter: the letters before it, the letter, the bytes before it.
    let places = || {
        let ends = name.char_indices().zip(1..);
        ends.map(|((byte, c), before)| (before, c, byte + c.len_utf8()))
    };
    let off = |before: usize| (2 * before).abs_diff(letters);
    let signs =
        places().filter(|&(before, c, _)| !c.is_alphanumeric() && 3 * off(before) <= letters);
    let sign = signs.min_by_key(|&(before, ..)| off(before));
    let half = places().min_by_key(|&(before, ..)| off(before));
    sign.or(half).map_or(0, |(.., bytes)| bytes)
}

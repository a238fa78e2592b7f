//! The ticks along the top of the lanes, and the grid behind them.

use std::io::{self, Write};

use super::rows::Block;
use super::scale::{Across, Scale};
use super::text::{self, grouped};

const SIZE: u32 = 13;

/// The least room between two labels, and between two marks.
const LABEL_GAP: u32 = 14;
const MARK_GAP: u32 = 8;

/// The length of marks at labels, and of those between.
const LONG_MARK: u32 = 7;
const SHORT_MARK: u32 = 4;

/// Between a mark and its label.
const LABEL_ABOVE: u32 = 5;

/// What the axis shows: labels at the cut's limits and at multiples of a step, shorter marks between.
pub struct Axis<'a> {
    scale: &'a Scale,
    step: u32,
    mark: u32,
}

impl<'a> Axis<'a> {
    pub fn of(scale: &'a Scale) -> Axis<'a> {
        let widest = label_width(scale.cut.to) + LABEL_GAP;
        let step = round_numbers().find(|&step| scale.takes(step, widest));
        let step = step.unwrap_or(scale.cut.ticks());
        let divides = |&mark: &u32| step.is_multiple_of(mark) && scale.takes(mark, MARK_GAP);
        let mark = round_numbers().find(divides).unwrap_or(step);
        Axis { scale, step, mark }
    }

    /// Writes the grid of a block of lanes, and the ticks above it.
    pub fn write(&self, block: &Block, out: &mut dyn Write) -> io::Result<()> {
        let Block { top, bottom } = *block;
        let [long, short] = [top - LONG_MARK, top - SHORT_MARK];
        let [left, right] = self.limits().map(|tick| self.scale.across(tick));
        let frame = format!("M{left} {long}V{bottom}M{left} {top}H{right}M{right} {long}V{bottom}");
        path("grid", "#c4c4c4", &self.lines(self.step, long, bottom), out)?;
        path("marks", "#777", &self.lines(self.mark, short, top), out)?;
        path("frame", "#777", &frame, out)?;
        self.write_labels(long - LABEL_ABOVE, out)
    }

    fn write_labels(&self, y: u32, out: &mut dyn Write) -> io::Result<()> {
        writeln!(
            out,
            "<g class=\"ticks\" font-size=\"{SIZE}\" text-anchor=\"middle\">"
        )?;
        for tick in self.labels() {
            let [x, words] = [self.scale.across(tick).to_string(), label(tick)];
            writeln!(out, "<text x=\"{x}\" y=\"{y}\">{words}</text>")?;
        }
        writeln!(out, "</g>")
    }

    /// The cut's first and last tick.
    fn limits(&self) -> [u32; 2] {
        [self.scale.cut.from, self.scale.cut.to]
    }

    /// Upright lines at the multiples of a step inside the cut.
    fn lines(&self, step: u32, top: u32, bottom: u32) -> String {
        let line = |tick| format!("M{} {top}V{bottom}", self.scale.across(tick));
        self.multiples(step).map(line).collect()
    }

    fn multiples(&self, step: u32) -> impl Iterator<Item = u32> {
        let cut = self.scale.cut;
        let first = (cut.from / step + 1).saturating_mul(step);
        (first..cut.to).step_by(step as usize)
    }

    /// The cut's limits, and the multiples whose labels are clear of theirs.
    fn labels(&self) -> Vec<u32> {
        let limits = self.limits();
        let is_clear = |&tick: &u32| limits.iter().all(|&limit| self.are_clear(tick, limit));
        let [first, last] = limits;
        let between = self.multiples(self.step).filter(is_clear);
        [first].into_iter().chain(between).chain([last]).collect()
    }

    fn are_clear(&self, one: u32, other: u32) -> bool {
        let [left, right] = [one, other].map(|tick| self.scale.across(tick));
        let room = (label_width(one) + label_width(other)).div_ceil(2) + LABEL_GAP;
        left.distance(right) >= Across::pixels(room)
    }
}

/// 1, 2 and 5 times the powers of ten up to a million.
fn round_numbers() -> impl Iterator<Item = u32> {
    (0..=6).flat_map(|power| [1, 2, 5].map(|digit| digit * 10_u32.pow(power)))
}

fn label(tick: u32) -> String {
    grouped(tick.into())
}

fn label_width(tick: u32) -> u32 {
    text::width(&label(tick), SIZE)
}

/// Writes lines, if there are any.
fn path(class: &str, colour: &str, lines: &str, out: &mut dyn Write) -> io::Result<()> {
    match lines.is_empty() {
        true => Ok(()),
        false => writeln!(
            out,
            "<path class=\"{class}\" fill=\"none\" stroke=\"{colour}\" d=\"{lines}\"/>"
        ),
    }
}

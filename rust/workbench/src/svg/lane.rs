//! What is drawn of one watched node: lines for 0, 1 and Z, boxes for X, and grey blocks where changes are too
//! close to be drawn apart.

use std::fmt::Write as _;
use std::io::{self, Write};

use timing::{Level, Record};

use super::scale::{Across, Scale};

/// Changes that stand nearer to each other, in pixels, are not drawn apart.
pub const CLOSE: u32 = 2;

/// How each sort of path looks.
const LINE: &str = "class=\"line\" fill=\"none\" stroke=\"#000\" stroke-width=\"1.5\"";
const NONE: &str =
    "class=\"none\" fill=\"none\" stroke=\"#000\" stroke-width=\"1.5\" stroke-dasharray=\"4 3\"";
const UNKNOWN: &str = "class=\"unknown\" fill=\"url(#hatch)\" stroke=\"#000\"";
const BLOCK: &str = "class=\"close\" fill=\"#999\" stroke=\"#666\" stroke-width=\"2\"";

/// The paths of a lane. Heights count downwards from its top, where the line of 1 is.
pub struct Lane {
    /// The height of the line of 0.
    low: u32,
    line: String,
    none: String,
    unknown: String,
    close: String,
    before: Before,
    /// A grey block that may still grow.
    open: Option<(Across, Across)>,
}

/// What is drawn up to a change.
enum Before {
    /// Nothing that an edge begins at: there is no value yet, or a box or block with an edge of its own.
    Nothing,
    Line,
    Dashes,
}

impl Lane {
    pub fn new(low: u32) -> Lane {
        Lane {
            low,
            line: String::new(),
            none: String::new(),
            unknown: String::new(),
            close: String::new(),
            before: Before::Nothing,
            open: None,
        }
    }

    /// Draws the part of a record that the cut shows. Records come in order, and the last reaches the cut's
    /// end, so that no block stays open.
    pub fn add(&mut self, record: Record, scale: &Scale) {
        let cut = scale.cut;
        let [start, end] = [record.tick.max(cut.from), record.end.min(cut.to)];
        if start >= end {
            return;
        }
        let [left, right] = [start, end].map(|tick| scale.across(tick));
        let is_between = cut.has_inside(record.tick) && cut.has_inside(record.end);
        if is_between && !scale.takes(end - start, CLOSE) {
            let (first, _) = self.open.unwrap_or((left, right));
            self.open = Some((first, right));
        } else {
            if let Some((first, last)) = self.open.take() {
                self.block(first, last);
            }
            self.value(record.value, left, right);
        }
    }

    /// Draws a grey block.
    pub fn block(&mut self, left: Across, right: Across) {
        boxed(&mut self.close, left, right, self.low);
        self.before = Before::Nothing;
    }

    /// Draws a value that lasts from one place to another.
    pub fn value(&mut self, value: Level, left: Across, right: Across) {
        match value {
            Level::High => self.solid(0, left, right),
            Level::Low => self.solid(self.low, left, right),
            Level::None => self.dashed(left, right),
            Level::Unknown => {
                boxed(&mut self.unknown, left, right, self.low);
                self.before = Before::Nothing;
            }
        }
    }

    fn solid(&mut self, height: u32, left: Across, right: Across) {
        let middle = self.middle();
        match self.before {
            Before::Nothing => put(&mut self.line, format_args!("M{left} {height}")),
            Before::Line => put(&mut self.line, format_args!("V{height}")),
            Before::Dashes => put(&mut self.line, format_args!("M{left} {middle}V{height}")),
        }
        put(&mut self.line, format_args!("H{right}"));
        self.before = Before::Line;
    }

    fn dashed(&mut self, left: Across, right: Across) {
        let middle = self.middle();
        if let Before::Line = self.before {
            put(&mut self.line, format_args!("V{middle}"));
        }
        put(&mut self.none, format_args!("M{left} {middle}H{right}"));
        self.before = Before::Dashes;
    }

    /// The height of the line of Z.
    fn middle(&self) -> u32 {
        self.low / 2
    }

    /// Whether there is a grey block.
    pub fn has_close(&self) -> bool {
        !self.close.is_empty()
    }

    /// Writes the paths that there are. Lines come last, so that they are not hidden.
    pub fn write(&self, out: &mut dyn Write) -> io::Result<()> {
        let paths = [
            (UNKNOWN, &self.unknown),
            (BLOCK, &self.close),
            (NONE, &self.none),
            (LINE, &self.line),
        ];
        for (look, path) in paths {
            if !path.is_empty() {
                writeln!(out, "<path {look} d=\"{path}\"/>")?;
            }
        }
        Ok(())
    }
}

/// Adds a box of the lane's whole height to a path.
fn boxed(path: &mut String, left: Across, right: Across, low: u32) {
    put(path, format_args!("M{left} 0H{right}V{low}H{left}Z"));
}

fn put(path: &mut String, commands: std::fmt::Arguments) {
    path.write_fmt(commands).expect("a string takes all");
}

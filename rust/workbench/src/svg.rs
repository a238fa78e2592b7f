//! A run as a timing diagram: a picture in SVG for the plant's binder.
//!
//! It stands alone, and is drawn in black and greys alone. Lengths are pixels of its natural size.

mod axis;
mod columns;
mod head;
mod key;
mod lane;
mod name;
mod paper;
mod rows;
mod scale;
mod text;

use std::io::{self, BufWriter, Write};

use timing::Record;

use crate::run::Run;

use axis::Axis;
use columns::{Columns, MARGIN};
use lane::Lane;
use name::Name;
use rows::Rows;
use scale::{Cut, Scale};
use text::{escaped, Text};

/// A node number has one byte.
const NODES: usize = 256;

/// Diagonal lines.
const HATCH: &str = "<pattern id=\"hatch\" width=\"5\" height=\"5\" patternUnits=\"userSpaceOnUse\" \
                     patternTransform=\"rotate(45)\"><path d=\"M2.5 0V5\" stroke=\"#000\"/></pattern>";

/// Stands in place of lanes.
const NOTHING: &str = "No node of this card is watched: there is nothing to draw.";

/// Writes the picture of the ticks from `from` up to `to`. The caller has seen that `from` is below `to` and
/// `to` not above the horizon. There is no date, so that the same run gives the same bytes.
pub fn write(run: &Run, from: u32, to: u32, out: &mut dyn Write) -> io::Result<()> {
    Picture::of(run, Cut { from, to }).write(&mut BufWriter::new(out))
}

/// What is known before the first byte is written.
struct Picture<'a> {
    run: &'a Run<'a>,
    rows: Rows,
    columns: Columns,
    scale: Scale,
    /// One for each watched node.
    lanes: Vec<Lane>,
}

impl<'a> Picture<'a> {
    fn of(run: &'a Run, cut: Cut) -> Picture<'a> {
        let rows = Rows::of(run.watched.len());
        let height = rows.bottom() + key::height(false);
        let columns = Columns::of(run, &rows, height, &changes(run, cut));
        let scale = Scale::of(cut, columns.left, columns.right);
        Picture {
            run,
            lanes: drawn(run, &scale, rows.wave()),
            rows,
            columns,
            scale,
        }
    }

    fn write(&self, out: &mut dyn Write) -> io::Result<()> {
        self.begin(out)?;
        head::write(self.run, self.scale.cut, self.columns.width, out)?;
        match self.lanes.is_empty() {
            true => write!(out, "{}", Text::sentence(MARGIN, head::BELOW, NOTHING))?,
            false => {
                self.ground(out)?;
                self.lanes(out)?;
                key::write(self.rows.bottom(), self.has_close(), out)?;
            }
        }
        writeln!(out, "</svg>")?;
        out.flush()
    }

    /// Whether a lane has changes that are too close.
    fn has_close(&self) -> bool {
        self.lanes.iter().any(Lane::has_close)
    }

    fn begin(&self, out: &mut dyn Write) -> io::Result<()> {
        let width = self.columns.width;
        let height = self.rows.bottom() + key::height(self.has_close());
        let title = escaped(self.run.title);
        let style = paper::style(height);
        writeln!(
            out,
            "<svg xmlns=\"http://www.w3.org/2000/svg\" width=\"{width}\" height=\"{height}\" \
             viewBox=\"0 0 {width} {height}\" preserveAspectRatio=\"xMidYMin\" \
             font-family=\"sans-serif\">"
        )?;
        writeln!(out, "<title>{title}</title>")?;
        writeln!(out, "<style>{style}</style>")?;
        writeln!(out, "<defs>{HATCH}</defs>")?;
        writeln!(
            out,
            "<rect width=\"{width}\" height=\"{height}\" fill=\"#fff\"/>"
        )
    }

    /// What is behind the lanes, and the ticks above them.
    fn ground(&self, out: &mut dyn Write) -> io::Result<()> {
        let [left, width] = [self.columns.left, self.columns.right - self.columns.left];
        writeln!(out, "<g class=\"bands\">")?;
        for place in 0..self.lanes.len() {
            let top = self.rows.wave_top(place);
            band(left, top, width, self.rows.wave(), out)?;
        }
        writeln!(out, "</g>")?;
        let axis = Axis::of(&self.scale);
        for block in self.rows.blocks() {
            axis.write(&block, out)?;
        }
        Ok(())
    }

    /// Each lane with its name.
    fn lanes(&self, out: &mut dyn Write) -> io::Result<()> {
        for (place, (lane, &node)) in self.lanes.iter().zip(self.run.watched).enumerate() {
            let top = self.rows.wave_top(place);
            let name = Name::of(self.run.name(node), self.rows.are_roomy());
            writeln!(out, "<g class=\"lane\" transform=\"translate(0 {top})\">")?;
            name.write(self.columns.name_right(), self.rows.wave() / 2, out)?;
            lane.write(out)?;
            writeln!(out, "</g>")?;
        }
        Ok(())
    }
}

/// How many changes each node has inside the cut, by its number.
fn changes(run: &Run, cut: Cut) -> [u32; NODES] {
    let mut changes = [0; NODES];
    for record in up_to(cut, run) {
        changes[usize::from(record.node)] += u32::from(cut.has_inside(record.tick));
    }
    changes
}

/// The lanes of the watched nodes, from one walk through the listing.
fn drawn(run: &Run, scale: &Scale, wave: u32) -> Vec<Lane> {
    let mut lanes: Vec<Lane> = run.watched.iter().map(|_| Lane::new(wave)).collect();
    let mut places = [None; NODES];
    for (place, &node) in run.watched.iter().enumerate() {
        places[usize::from(node)] = Some(place);
    }
    for record in up_to(scale.cut, run) {
        if let Some(place) = places[usize::from(record.node)] {
            lanes[place].add(record, scale);
        }
    }
    lanes
}

/// The records that begin before the cut's end.
fn up_to<'a>(cut: Cut, run: &Run<'a>) -> impl Iterator<Item = Record> + 'a {
    run.listing
        .iter()
        .take_while(move |record| record.tick < cut.to)
}

/// What is behind a lane's waves: a line at its top or bottom is told apart where nothing else is near.
fn band(left: u32, top: u32, width: u32, height: u32, out: &mut dyn Write) -> io::Result<()> {
    writeln!(
        out,
        "<rect x=\"{left}\" y=\"{top}\" width=\"{width}\" height=\"{height}\" fill=\"#eee\"/>"
    )
}

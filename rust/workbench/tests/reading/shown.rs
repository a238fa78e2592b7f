//! Pictures of finished runs, and what their lanes show beside what the listing says.

use workbench::svg;

use crate::diagram::{lanes, scale, Scale, Stretch};
use crate::finished::Finished;
use crate::xml::{read, Element};

/// The picture's bytes as a text.
pub fn text(run: &Finished, from: u32, to: u32) -> String {
    let mut bytes = Vec::new();
    svg::write(&run.run(), from, to, &mut bytes).expect("there is room");
    String::from_utf8(bytes).expect("names and titles are texts")
}

pub fn picture(run: &Finished, from: u32, to: u32) -> Element {
    read(&text(run, from, to)).unwrap_or_else(|wrong| panic!("{}: {wrong}", run.title))
}

/// The distance below which changes are not drawn apart, in pixels.
const CLOSE: f64 = 2.0;

/// What the listing says of a node inside the cut. Values between two changes that are too close are one block
/// with those next to them.
fn listed(run: &Finished, node: u8, scale: &Scale) -> Vec<Stretch> {
    let mut stretches: Vec<Stretch> = Vec::new();
    for record in run.listing.iter().filter(|record| record.node == node) {
        let [from, to] = [record.tick.max(scale.from), record.end.min(scale.to)];
        let is_between = record.tick > scale.from && record.end < scale.to;
        let is_close = is_between && scale.is_below(record.end - record.tick, CLOSE);
        let value = (!is_close).then_some(record.value);
        match stretches.last_mut() {
            _ if from >= to => {}
            Some(last) if is_close && last.value.is_none() => last.to = to,
            _ => stretches.push(Stretch { from, to, value }),
        }
    }
    stretches
}

/// Asserts that the lanes show what the listing says, and gives all that they show.
pub fn same(run: &Finished, from: u32, to: u32, whence: &str) -> Vec<Stretch> {
    let picture = picture(run, from, to);
    let scale = scale(&picture);
    assert_eq!([scale.from, scale.to], [from, to], "{whence}");
    let lanes = lanes(&picture).unwrap_or_else(|wrong| panic!("{whence}: {wrong}"));
    assert_eq!(lanes.len(), run.watched.len(), "{whence}");
    for (lane, &node) in lanes.iter().zip(&run.watched) {
        assert_eq!(lane.name, run.run().name(node), "{whence}");
        let expected = listed(run, node, &scale);
        assert_eq!(lane.stretches, expected, "{whence}, {}", lane.name);
    }
    lanes.into_iter().flat_map(|lane| lane.stretches).collect()
}

/// The texts of the head.
pub fn head(run: &Finished, from: u32, to: u32) -> String {
    let picture = picture(run, from, to);
    let head = picture.of("head").next().map(|head| head.text.clone());
    head.expect("there is a head")
}

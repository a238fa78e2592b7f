//! All parts of a picture have room of their own.

use crate::diagram::number;
use crate::finished::Finished;
use crate::shown::picture;
use crate::xml::Element;

/// The room of a line of text, from its top to its bottom.
fn line(text: &Element, size: f64) -> (f64, f64) {
    let bottom = number(text, "y");
    (bottom - size, bottom)
}

/// The rooms of the parts of a picture from the top down: lines of the head and the key, ticks, lanes.
fn rooms(picture: &Element) -> Vec<(f64, f64)> {
    let texts = ["head", "key"].map(|class| picture.of(class).flat_map(|part| part.named("text")));
    let texts = texts.into_iter().flatten();
    let lines = texts.map(|text| line(text, number(text, "font-size")));
    let ticks = picture.of("ticks").map(|ticks| {
        let label = ticks.named("text").next().expect("there are labels");
        let (top, bottom) = line(label, number(ticks, "font-size"));
        // Marks are under the labels.
        (top, bottom + 13.0)
    });
    let bands = picture.of("bands").flat_map(|bands| &bands.children);
    let bands = bands.map(|band| {
        (
            number(band, "y"),
            number(band, "y") + number(band, "height"),
        )
    });
    let mut rooms: Vec<_> = lines.chain(ticks).chain(bands).collect();
    rooms.sort_by(|one, other| one.0.total_cmp(&other.0));
    rooms.dedup();
    rooms
}

/// However many lanes there are, with grey blocks and without, all has room of its own.
#[test]
fn nothing_overlaps() {
    for lanes in [1, 2, 10, 11, 19, 29, 30, 31, 60, 61, 256] {
        let still = Finished::inputs(lanes, 100);
        let grey = Finished::rings(&vec![1; lanes], 2_000);
        for (run, key) in [(still, 1), (grey, 2)] {
            let picture = picture(&run, 0, run.horizon);
            let rooms = rooms(&picture);
            let [head, axes] = [3, lanes.div_ceil(30)];
            assert_eq!(rooms.len(), head + axes + lanes + key, "{lanes} lanes");
            let height = number(&picture, "height");
            assert!(rooms[0].0 >= 0.0 && rooms[rooms.len() - 1].1 <= height);
            for pair in rooms.windows(2) {
                assert!(pair[0].1 < pair[1].0, "{lanes} lanes: {pair:?}");
            }
        }
    }
}

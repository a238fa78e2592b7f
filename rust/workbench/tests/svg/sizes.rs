//! The sizes of pictures, on paper and as files.

use workbench::svg;

use crate::diagram::number;
use crate::finished::Finished;
use crate::shown::{picture, same, text};
use crate::xml::read;

/// The natural size is the whole picture's, and a browser prints it on A4: on one page, whose whole width it
/// has, or on several if there are many lanes.
#[test]
fn sizes() {
    for lanes in [1, 10, 30, 40, 50, 60, 256] {
        let text = text(&Finished::inputs(lanes, 100), 0, 100);
        let picture = read(&text).expect("it is well-formed");
        let [width, height] = [number(&picture, "width"), number(&picture, "height")];
        let whole = format!("0 0 {width} {height}");
        assert_eq!(picture.attribute("viewBox"), Some(whole.as_str()));
        let is_one = lanes <= 50;
        let printed = if is_one { "100%" } else { "auto" };
        let style = format!(
            "@page{{size:A4 landscape;margin:10mm}}@media print{{:root{{width:100%;height:{printed}}}}}"
        );
        assert!(text.contains(&style), "{lanes} lanes");
        let page = if is_one { height * 277.0 / 190.0 } else { 0.0 };
        let expected = page.clamp(1_040.0, 1_560.0);
        assert!(
            (width - expected).abs() < 4.0,
            "{lanes} lanes: {width} by {height}"
        );
    }
}

/// The width grows with the changes, unless they could not be drawn apart.
#[test]
fn more_changes_make_it_wider() {
    let changes = [
        (10, 1_040.0),
        (110, 1_040.0),
        (150, 1_310.0),
        (500, 1_560.0),
        (5_000, 1_040.0),
    ];
    for (changes, expected) in changes {
        let run = Finished::rings(&[1], changes + 1);
        let width = number(&picture(&run, 0, run.horizon), "width");
        assert!(
            (width - expected).abs() < 40.0,
            "{changes} changes: {width}"
        );
    }
}

/// Three nodes that change at every tick of a million, and forty with as many changes as are drawn apart.
#[test]
fn a_million_ticks_stay_small() {
    let dense: Vec<u16> = (0..40).map(|place| 1_500 + 10 * place).collect();
    let run = Finished::rings(&[&[1, 1, 1], dense.as_slice()].concat(), 1_000_000);
    assert!(run.listing.len() >= 3_000_000);
    let text = text(&run, 0, 1_000_000);
    println!("{} bytes for {} records", text.len(), run.listing.len());
    assert!(text.len() <= 400_000, "{} bytes", text.len());
    let picture = read(&text).expect("it is well-formed");
    let grey: Vec<usize> = picture
        .of("lane")
        .map(|lane| lane.of("close").count())
        .collect();
    assert_eq!(grey[..3], [1; 3]);
    assert_eq!(grey[3..], [0; 40]);
    // A cut of it is read back.
    same(&run, 500_000, 500_100, "cut");
}

/// The greatest picture: all 256 nodes change as often as is drawn apart.
#[test]
fn the_largest_picture_is_bounded() {
    let run = Finished::rings(&[1; 256], 600);
    let text = text(&run, 0, 600);
    println!("{} bytes for {} records", text.len(), run.listing.len());
    assert!(!text.contains("Grey"));
    assert!(text.len() <= 2_500_000, "{} bytes", text.len());
    same(&run, 0, 600, "all");
}

/// Where not all is taken, the error is handed on.
#[test]
fn no_room() {
    let run = Finished::worked();
    let length = text(&run, 0, 12).len();
    for bytes in 0..=length {
        let mut room = vec![0; length];
        let written = svg::write(&run.run(), 0, 12, &mut &mut room[..bytes]);
        assert_eq!(written.is_ok(), bytes == length, "{bytes} bytes");
    }
}

//! The ticks along the top, and the grid.

use crate::diagram::{labels, number, scale};
use crate::finished::Finished;
use crate::shown::picture;
use crate::xml::Element;

/// 1, 2 or 5 times a power of ten.
fn is_round(mut number: u32) -> bool {
    while number.is_multiple_of(10) && number > 0 {
        number /= 10;
    }
    [1, 2, 5].contains(&number)
}

/// Cuts of a run to tick 1,000,000.
const CUTS: [(u32, u32); 16] = [
    (0, 1),
    (0, 2),
    (0, 3),
    (0, 7),
    (3, 4),
    (3, 12),
    (0, 99),
    (1, 100),
    (77, 1_000),
    (123, 4_567),
    (333_333, 333_999),
    (249_990, 250_010),
    (999_999, 1_000_000),
    (999_001, 1_000_000),
    (1, 999_999),
    (0, 1_000_000),
];

/// Labels are the cut's limits, and between them multiples of a round step.
#[test]
fn labels_are_round_numbers() {
    let run = Finished::inputs(1, 1_000_000);
    for (from, to) in CUTS {
        let picture = picture(&run, from, to);
        let ticks = picture.of("ticks").next().expect("there are ticks");
        let numbers: Vec<u32> = labels(ticks).iter().map(|&(_, tick)| tick).collect();
        let [first, inner @ .., last] = numbers.as_slice() else {
            panic!("{from} to {to}: {numbers:?}");
        };
        assert_eq!([*first, *last], [from, to]);
        let least = 2.min(to - from - 1) as usize;
        assert!(inner.len() >= least, "{numbers:?}");
        let steps: Vec<u32> = inner.windows(2).map(|pair| pair[1] - pair[0]).collect();
        for (&step, &tick) in steps.iter().zip(inner) {
            assert!(is_round(step) && step == steps[0], "{numbers:?}");
            assert!(tick.is_multiple_of(step), "{numbers:?}");
        }
    }
}

/// No digit of the usual types is wider, in parts of their size.
const DIGIT: f64 = 0.64;

/// The width of a tick's label: a sign stands between each three digits.
fn label_width(tick: u32, size: f64) -> f64 {
    let digits = tick.to_string().len();
    let letters = digits + (digits - 1) / 3;
    letters as f64 * DIGIT * size
}

#[test]
fn labels_stand_at_their_ticks_and_apart() {
    let run = Finished::inputs(1, 1_000_000);
    for (from, to) in CUTS {
        let picture = picture(&run, from, to);
        let ticks = picture.of("ticks").next().expect("there are ticks");
        let labels = labels(ticks);
        let half = |tick| label_width(tick, number(ticks, "font-size")) / 2.0;
        for (place, tick) in &labels {
            let off = place - scale(&picture).across(*tick);
            assert!(off.abs() < 0.02, "{tick} of {from} to {to}");
        }
        for pair in labels.windows(2) {
            let [(left, before), (right, after)] = [pair[0], pair[1]];
            let room = right - left - half(before) - half(after);
            assert!(room >= 4.0, "{from} to {to}: {pair:?}");
        }
    }
}

/// The places of a path's upright lines.
fn uprights(path: &Element) -> Vec<f64> {
    let lines = path.attribute("d").unwrap_or_default().split('M').skip(1);
    let place = |line: &str| {
        line.split_once(' ')
            .and_then(|(place, _)| place.parse().ok())
    };
    lines.map(|line| place(line).expect("a place")).collect()
}

/// The grid's lines stand at the labels, and marks there and evenly between.
#[test]
fn grid_and_marks() {
    let mut more_marks = 0;
    for horizon in 20..400 {
        let picture = picture(&Finished::inputs(1, horizon), 0, horizon);
        let [grid, marks] = ["grid", "marks"].map(|class| {
            let path = picture.of(class).next();
            uprights(path.unwrap_or_else(|| panic!("{horizon}: no {class}")))
        });
        let labels = picture.of("ticks").flat_map(labels);
        let labels: Vec<f64> = labels.map(|(place, _)| place).collect();
        // Near the last label there is a line without one.
        let inner = &labels[1..labels.len() - 1];
        assert!(
            grid.starts_with(inner) && grid.len() <= inner.len() + 1,
            "{horizon}"
        );
        let has_all = grid.iter().all(|place| marks.contains(place));
        assert!(has_all, "{horizon}: {marks:?}");
        let steps: Vec<f64> = marks.windows(2).map(|pair| pair[1] - pair[0]).collect();
        let is_even = steps.iter().all(|step| (step - steps[0]).abs() < 0.03);
        assert!(is_even && steps[0] >= 8.0, "{horizon}: {steps:?}");
        more_marks += u32::from(marks.len() > grid.len());
    }
    assert!(more_marks >= 300, "{more_marks}");
}

/// The ticks are there again above lanes further down.
#[test]
fn ticks_for_many_lanes() {
    let picture = picture(&Finished::inputs(61, 100), 0, 100);
    let rows: Vec<_> = picture.of("ticks").map(labels).collect();
    assert_eq!(rows.len(), 3);
    assert!(rows.iter().all(|row| *row == rows[0]));
}

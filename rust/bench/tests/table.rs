//! The table has a line for each workload, and no time for a listing that is not the library's.

use bench::table::{believed, caption, head, Row};
use bench::timed::Timed;
use bench::workload;

#[test]
fn caption_and_head() {
    let caption = caption(1_000, "8 cores, 2024-02-29");
    assert!(caption.contains("1000 ticks"));
    assert!(caption.ends_with("8 cores, 2024-02-29."));
    let expected = "| Workload | Records | Library | Safe Rust | Plain |\n|---|---|---|---|---|";
    assert_eq!(head(&[]), expected);
}

#[test]
fn a_line_for_a_workload() {
    let workloads = workload::all();
    let row = Row::timed(&workloads[0], 500, &[]);
    assert!(row.all_agree());
    let line = row.to_string();
    let start = "| ring of 253, all toggling | 500 | ";
    assert!(line.starts_with(start), "{line}");
    assert_eq!(line.matches('|').count(), 6, "{line}");
    assert!(!line.contains("another listing"), "{line}");
}

#[test]
fn another_listing_is_not_believed() {
    let timed = |value, end| Timed {
        records: vec![(0, 0, value, end)],
        seconds: 2.0,
    };
    assert_eq!(believed(&timed(1, 9), &timed(1, 9)), Some(2.0));
    assert_eq!(believed(&timed(0, 9), &timed(1, 9)), None);
    assert_eq!(believed(&timed(1, 8), &timed(1, 9)), None);
}

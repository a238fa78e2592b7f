//! The tests' own readers can fail.

use crate::diagram::lanes;
use crate::finished::Finished;
use crate::names::called;
use crate::shown::text;
use crate::xml::read;

/// Texts with one part replaced.
fn spoiled<'a>(good: &'a str, faults: &'a [(&str, &str)]) -> impl Iterator<Item = String> + 'a {
    faults.iter().map(move |(from, to)| {
        let bad = good.replacen(from, to, 1);
        assert_ne!(bad, good, "{from}");
        bad
    })
}

/// The reader of XML refuses documents with one fault, so it can fail.
#[test]
fn faulty_documents_are_refused() {
    let good = text(&called("a & b", ["a", "b"]), 0, 9);
    let faults = [
        ("</svg>", ""),
        ("</svg>", "</svg><svg/>"),
        ("</svg>", "</svg>."),
        ("<svg ", " <svg "),
        ("</g>", ""),
        ("</g>", "</g></g>"),
        ("</text>", "</texts>"),
        ("<text ", "<text"),
        ("<text ", "<1 "),
        ("/>", ">"),
        ("width=\"", "width="),
        ("width=\"", "width='"),
        ("width=\"", "width=\"\" width=\""),
        ("width=\"", "width=\"<"),
        ("&amp;", "&"),
        ("&amp;", "&nbsp;"),
        ("&amp;", "<"),
        ("&amp;", "\u{1}"),
        ("&amp;", "\u{fffe}"),
    ];
    assert!(read(&good).is_ok());
    for bad in spoiled(&good, &faults) {
        assert!(read(&bad).is_err(), "{bad}");
    }
}

/// The reader of diagrams refuses lanes with a gap, an edge too many or too few, or a line off its place.
#[test]
fn faulty_lanes_are_refused() {
    let good = text(&Finished::worked(), 0, 12);
    let faults = [
        ("M105 30H476.25V0H996", "M105 30H476.25V0H995"),
        ("M105 30H476.25V0H996", "M105 30H476V0H996"),
        ("M105 30H476.25V0H996", "M105 30H476.25M476.25 0H996"),
        ("M105 30H476.25V0H996", "M105 30H476.25V15V0H996"),
        ("M105 30H476.25V0H996", "M105 30H476.25V1H996"),
        ("M105 30H476.25V0H996", "M105 30H402M476.25 30V0H996"),
        ("M105 30H476.25V0H996", "M105 30L476.25 0H996"),
        ("M105 30H476.25V0H996", "H476.25V0H996"),
        ("M105 0H327.75V30H105Z", "M105 0H327.75V29H105Z"),
        ("M105 0H327.75V30H105Z", "M105 0H327.75V30H105"),
        ("M105 0H327.75V30H105Z", "M105 0H402V30H105Z"),
        ("class=\"unknown\"", "class=\"none\""),
        ("class=\"unknown\"", "class=\"other\""),
    ];
    let of = |text: &str| lanes(&read(text).expect("it is well-formed"));
    assert!(of(&good).is_ok());
    for bad in spoiled(&good, &faults) {
        assert!(of(&bad).is_err(), "{bad}");
    }
}

//! The picture as a whole: it stands alone, in black and greys, and may have no lane.

use generate::sheets::sheet;
use plain::INPUT;

use crate::drawn::every_value;
use crate::finished::Finished;
use crate::shown::{head, picture, text};

#[test]
fn no_watched_node() {
    let run = Finished::named(&sheet(&[INPUT], &[], &[], &[]), 9, "none", &["a"]);
    let picture = picture(&run, 0, 9);
    assert!(picture.text.contains("No node of this card is watched"));
    assert!(head(&run, 0, 9).contains("Records in the listing: 0"));
    for class in ["lane", "ticks", "key"] {
        assert_eq!(picture.of(class).count(), 0, "{class}");
    }
}

/// Nothing is fetched or run from elsewhere.
#[test]
fn it_stands_alone() {
    let text = text(&every_value(), 0, 60);
    let words = [
        "href",
        "src",
        "@import",
        "@font-face",
        "<script",
        "<image",
        "<!",
    ];
    for word in words {
        assert!(!text.contains(word), "{word}");
    }
    let count = |word| text.matches(word).count();
    assert_eq!(count("http"), count("xmlns=\"http://www.w3.org/2000/svg\""));
    assert_eq!(count("url("), count("url(#hatch)"));
}

/// Whether all three parts of a colour are the same.
fn is_grey(colour: &str) -> bool {
    let digits = colour.strip_prefix('#').unwrap_or_default();
    let part = &digits[..digits.len() / 3];
    !part.is_empty() && digits == part.repeat(3)
}

#[test]
fn it_is_black_and_grey() {
    let close = Finished::rings(&[1], 5_000);
    let text = text(&every_value(), 0, 60) + &text(&close, 0, 5_000);
    let mut colours = 0;
    for attribute in [" fill=\"", " stroke=\""] {
        let values = text.split(attribute).skip(1);
        for colour in values.filter_map(|rest| rest.split('"').next()) {
            let is_none = ["none", "url(#hatch)"].contains(&colour);
            assert!(is_none || is_grey(colour), "{colour}");
            colours += 1;
        }
    }
    assert!(colours >= 10, "{colours} colours");
}

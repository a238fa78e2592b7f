//! Names and titles, whatever they have in them.

use generate::sheets::sheet;
use plain::{HIGH, INPUT};

use crate::diagram::{lanes, number, scale};
use crate::finished::Finished;
use crate::shown::{head, picture, same};
use crate::xml::Element;

/// A run of two inputs with any title and names.
pub fn called(title: &str, names: [&str; 2]) -> Finished {
    let card = sheet(&[INPUT, INPUT], &[], &[(3, 1, HIGH)], &[0, 1]);
    Finished::named(&card, 9, title, &names)
}

#[test]
fn names_and_titles_are_escaped() {
    let title = "a < b && c > \"d\" <script>";
    let run = called(title, ["<&>\"'", "&amp;</text>"]);
    same(&run, 0, 9, title);
    assert!(head(&run, 0, 9).contains(title));
    let picture = picture(&run, 0, 9);
    let titles: Vec<&str> = picture
        .named("title")
        .map(|title| title.text.as_str())
        .collect();
    assert_eq!(titles, [title]);
    assert_eq!(picture.named("script").count(), 0);
}

/// XML has no way to write some characters, and others steer printers.
#[test]
fn control_characters_are_replaced() {
    let run = called("\u{7}", ["a\0b\u{1b}c", "\u{ffff}\u{85}\t"]);
    let shown = lanes(&picture(&run, 0, 9)).expect("there are lanes");
    let names: Vec<&str> = shown.iter().map(|lane| lane.name.as_str()).collect();
    assert_eq!(names, ["a\u{fffd}b\u{fffd}c", "\u{fffd}\u{fffd}\u{fffd}"]);
    assert!(head(&run, 0, 9).contains('\u{fffd}'));
}

/// The width that a text takes, or is pressed to. Letters have one width, and Chinese ones are square.
fn width(text: &Element) -> f64 {
    let letter = |c: char| if c < '\u{1100}' { 0.6 } else { 1.0 };
    let letters: f64 = text.text.chars().map(letter).sum();
    match text.attribute("textLength") {
        Some(_) => number(text, "textLength"),
        None => letters * number(text, "font-size"),
    }
}

/// The lines of all names.
fn name_lines(picture: &Element) -> Vec<&Element> {
    let lanes = picture.of("lane");
    lanes.flat_map(|lane| lane.named("text")).collect()
}

/// Names of every length stand left of their lanes and inside the picture. Where there are few lanes, long
/// ones have two lines.
#[test]
fn long_names() {
    for lanes in [4, 24] {
        for length in [1, 10, 20, 30, 64, 1_000] {
            let watched: Vec<u8> = (0..lanes).collect();
            let kinds = ["n", "M", "é", "漢"].map(|letter| letter.repeat(length));
            let names = watched.iter().zip(kinds.iter().cycle());
            let names: Vec<&str> = names.map(|(_, name)| name.as_str()).collect();
            let card = sheet(&vec![INPUT; watched.len()], &[], &[], &watched);
            let run = Finished::named(&card, 9, &kinds[0], &names);
            let whence = format!("{lanes} names of {length}");
            same(&run, 0, 9, &whence);
            let picture = picture(&run, 0, 9);
            let [left, right] = [0, 9].map(|tick| scale(&picture).across(tick));
            assert!(right - left >= 700.0, "{whence}");
            let lines = name_lines(&picture);
            for line in &lines {
                let right = number(line, "x");
                assert!(right < left, "{whence}: {line:?}");
                assert!(right - width(line) >= 0.0, "{whence}: {line:?}");
            }
            let has_two = lines.len() > watched.len();
            assert_eq!(has_two, lanes == 4 && length >= 20, "{whence}");
            let title = &picture.of("head").next().expect("a head").children[0];
            let right = number(title, "x") + width(title);
            assert!(right <= number(&picture, "width"), "{whence}");
        }
    }
}

#[test]
fn a_long_name_is_broken_between_words() {
    let name = "inverse_of_the_gob_detector_of_section_4/left-hand[3].feeder_1_a";
    let picture = picture(&called("names", [name, &"a".repeat(41)]), 0, 9);
    let lines = name_lines(&picture);
    let lines: Vec<&str> = lines.iter().map(|line| line.text.as_str()).collect();
    let [first, second] = name
        .split_at("inverse_of_the_gob_detector_of_".len())
        .into();
    let [third, fourth] = [&"a".repeat(20)[..], &"a".repeat(21)];
    assert_eq!(lines, [first, second, third, fourth]);
}

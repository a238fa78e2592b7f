//! Calls and their whole outcome after a request of document 02, on which two independent readings
//! of documents 01 and 02 agree: answers and every byte of the lent buffers, by the proved library and
//! by the plain simulator.
//!
//! W-209 changes what the calls come to that gave 9: the 19 of them are left out of the files before it.
//! These files stay, for W-209's own has no run that meets 20 and lacks other answers that they have, and
//! they show that sheets with one driver a node are what they were. W-210 changes no call of an earlier file.

mod call;
mod vector;

use call::{PLAIN, PROVED};
use generate::drivers::has_several_drivers;
use plain::Edition;
use vector::Vector;

/// The requests up to W-204. Records have ends from there on, so no earlier file's runs hold.
const AFTER_204: &str = include_str!("after-204.txt");

/// Those up to W-205, in both editions. What the file before says holds as well.
const AFTER_205: &str = include_str!("after-205.txt");

/// Those up to W-207: conversions from each edition to the other, and what the files before have.
const AFTER_207: &str = include_str!("after-207.txt");

/// Those up to W-208: reports of pulses, and what the files before have.
const AFTER_208: &str = include_str!("after-208.txt");

/// Those up to W-209: sheets with several drivers a node, and what the files before have.
const AFTER_209: &str = include_str!("after-209.txt");

/// Those up to W-210: loads, and what the files before have.
const AFTER_210: &str = include_str!("after-210.txt");

/// Asserts that both simulators give every vector's outcome, and that there are so many of each call in
/// each edition.
fn hold(text: &str, calls: &[(Edition, &str, usize)]) {
    let vectors = vector::all(text);
    for vector in &vectors {
        for simulator in [PROVED, PLAIN] {
            let outcome = simulator.outcome(vector);
            let Vector { line, expected, .. } = vector;
            assert_eq!(&outcome, expected, "{}, line {line}", simulator.name);
        }
    }
    for &(edition, name, count) in calls {
        let named = |vector: &&Vector| (vector.edition, vector.call) == (edition, name);
        let found = vectors.iter().filter(named).count();
        assert_eq!(found, count, "{edition:?}, {name}");
    }
    let all = calls.iter().map(|&(.., count)| count);
    assert_eq!(vectors.len(), all.sum());
}

#[test]
fn after_204() {
    let calls = [
        (Edition::First, "check", 104),
        (Edition::First, "check_strict", 126),
        (Edition::First, "run", 130),
    ];
    hold(AFTER_204, &calls);
}

#[test]
fn after_205() {
    let calls = [
        (Edition::First, "check", 107),
        (Edition::First, "check_strict", 129),
        (Edition::First, "run", 123),
        (Edition::Second, "check", 106),
        (Edition::Second, "check_strict", 128),
        (Edition::Second, "run", 130),
    ];
    hold(AFTER_205, &calls);
}

#[test]
fn after_207() {
    let calls = [
        (Edition::First, "check", 28),
        (Edition::First, "check_strict", 35),
        (Edition::First, "run", 43),
        (Edition::First, "convert", 156),
        (Edition::Second, "check", 28),
        (Edition::Second, "check_strict", 34),
        (Edition::Second, "run", 45),
        (Edition::Second, "convert", 152),
    ];
    hold(AFTER_207, &calls);
}

#[test]
fn after_208() {
    let calls = [
        (Edition::First, "check", 35),
        (Edition::First, "check_strict", 42),
        (Edition::First, "run", 41),
        (Edition::First, "convert", 43),
        (Edition::First, "pulses", 161),
        (Edition::Second, "check", 32),
        (Edition::Second, "check_strict", 40),
        (Edition::Second, "run", 42),
        (Edition::Second, "convert", 40),
        (Edition::Second, "pulses", 164),
    ];
    hold(AFTER_208, &calls);
}

#[test]
fn after_209() {
    let calls = [
        (Edition::First, "check", 128),
        (Edition::First, "check_strict", 158),
        (Edition::First, "run", 116),
        (Edition::First, "convert", 176),
        (Edition::First, "pulses", 177),
        (Edition::Second, "check", 127),
        (Edition::Second, "check_strict", 161),
        (Edition::Second, "run", 112),
        (Edition::Second, "convert", 168),
        (Edition::Second, "pulses", 180),
    ];
    hold(AFTER_209, &calls);
}

#[test]
fn after_210() {
    let calls = [
        (Edition::First, "check", 41),
        (Edition::First, "check_strict", 46),
        (Edition::First, "run", 44),
        (Edition::First, "convert", 51),
        (Edition::First, "pulses", 54),
        (Edition::First, "load", 218),
        (Edition::Second, "check", 41),
        (Edition::Second, "check_strict", 48),
        (Edition::Second, "run", 44),
        (Edition::Second, "convert", 50),
        (Edition::Second, "pulses", 53),
        (Edition::Second, "load", 212),
    ];
    hold(AFTER_210, &calls);
}

/// No call gives 9 any more, and of the sheets that are accepted many have several drivers a node.
#[test]
fn several_drivers() {
    let vectors = vector::all(AFTER_209);
    let is_shared = |vector: &&Vector| {
        let sheet = plain::read(vector.edition, &vector.sheet);
        sheet.is_ok_and(|sheet| has_several_drivers(&sheet))
    };
    let shared = vectors.iter().filter(is_shared).count();
    assert!(shared >= 300, "{shared} calls");
    let files = [
        AFTER_204, AFTER_205, AFTER_207, AFTER_208, AFTER_209, AFTER_210,
    ];
    let answers = files.into_iter().flat_map(vector::all);
    assert!(answers.into_iter().all(|v| v.expected.answer[0] != 9));
}

//! What a refusal's place is: section, record, name, and the line of a text.

use crate::support::Folder;

/// The place that a check tells with its number, of the text and of its sheet.
fn places(folder: &Folder, number: u32, text: &str) -> [String; 2] {
    folder.write("card.net", text);
    let assembled = folder.timing(&["assemble", "card.net", "-o", "card.sheet"]);
    assert_eq!(assembled.status, 0, "{text}{}", assembled.err);
    ["card.net", "card.sheet"].map(|file| {
        let ended = folder.timing(&["check", file, "--strict"]);
        assert_eq!((ended.status, ended.err.as_str()), (1, ""), "{text}");
        let said = format!("\nnumber: {number}\nplace: ");
        assert!(ended.out.contains(&said), "{}", ended.out);
        let place = ended
            .out
            .lines()
            .find_map(|line| line.strip_prefix("place: "));
        place
            .unwrap_or_else(|| panic!("no place: {}", ended.out))
            .to_string()
    })
}

/// One card for each refusal of a check: the place in its text, and in its sheet.
#[test]
fn of_each_refusal() {
    let folder = Folder::new("of_each_refusal");
    let a = "timing-1\ninput a\n";
    let driven = "drive a: 0 at 0\n";
    for (number, text, in_text, in_sheet) in [
        (
            2,
            format!("{a}raw bytes from modules: 01 00 06"),
            "modules, record 0",
            "modules, record 0",
        ),
        (
            2,
            format!("{a}{driven}raw bytes from watched: 01"),
            "the count of watched nodes",
            "the count of watched nodes",
        ),
        (
            3,
            format!("{a}raw bytes from modules: 01 01"),
            "the count of modules",
            "the count of modules",
        ),
        (
            3,
            format!("{a}raw bytes from drive: FF 0F"),
            "the count of drive events",
            "the count of drive events",
        ),
        (
            4,
            format!("{a}raw node b byte 5"),
            "nodes, record 1 (b), line 3 of card.net",
            "nodes, record 1 (n1)",
        ),
        (
            5,
            format!("{a}raw module kind 10 parameter 0 output a inputs @0 @0 delay 1"),
            "modules, record 0 (a), line 3 of card.net",
            "modules, record 0 (n0)",
        ),
        (
            6,
            format!("{a}raw module kind 3 parameter 1 output a inputs @0 @0 delay 1"),
            "modules, record 0 (a), line 3 of card.net",
            "modules, record 0 (n0)",
        ),
        (
            7,
            format!("{a}b = buffer(a) delay 1 initial X\n@9 = buffer(a) delay 1"),
            "modules, record 1 (@9), line 4 of card.net",
            "modules, record 1 (@9)",
        ),
        (
            8,
            format!("{a}b = buffer(a) delay 10001 initial X"),
            "modules, record 0 (b), line 3 of card.net",
            "modules, record 0 (n1)",
        ),
        (
            10,
            format!("{a}node b initial 0"),
            "nodes, record 1 (b), line 3 of card.net",
            "nodes, record 1 (n1)",
        ),
        (
            11,
            format!("{a}drive a: 0 at 1000000, 1 at 7"),
            "drive, record 1 (a at tick 1000000), line 3 of card.net",
            "drive, record 1 (n0 at tick 1000000)",
        ),
        (
            12,
            format!("{a}b = buffer(a) delay 1 initial X\n{driven}drive b: 0 at 5"),
            "drive, record 1 (b at tick 5), line 5 of card.net",
            "drive, record 1 (n1 at tick 5)",
        ),
        (
            13,
            format!("{a}raw event tick 0 node a value 4"),
            "drive, record 0 (a at tick 0), line 3 of card.net",
            "drive, record 0 (n0 at tick 0)",
        ),
        (
            14,
            format!("{a}{driven}raw event tick 0 node a value 1"),
            "drive, record 1 (a at tick 0), line 4 of card.net",
            "drive, record 1 (n0 at tick 0)",
        ),
        (
            15,
            format!("{a}drive a: 0 at 1"),
            "nodes, record 0 (a), line 2 of card.net",
            "nodes, record 0 (n0)",
        ),
        (
            16,
            format!("{a}{driven}watch a\nraw watch @3"),
            "watched, record 1 (@3), line 5 of card.net",
            "watched, record 1 (@3)",
        ),
        (
            17,
            format!("{a}{driven}raw bytes from end: 00"),
            "the end, after the watched nodes",
            "the end, after the watched nodes",
        ),
        (
            18,
            format!("{a}{driven}b = and(a, c) delay 0 initial X\nc = buffer(b) delay 0 initial X"),
            "nodes, record 1 (b), line 4 of card.net",
            "nodes, record 1 (n1)",
        ),
    ] {
        assert_eq!(
            places(&folder, number, &text),
            [in_text, in_sheet],
            "{number}: {text}"
        );
        let sheet = folder.read("card.sheet");
        let [found, ..] = plain::check_strict(plain::Edition::First, &sheet).triple();
        assert_eq!(found, number, "{text}");
    }
}

/// The tick of a crowded run. The ring changes at every tick after 0, so that after tick t each of the 40 buffers
/// has t changes pending, and the ring one: 40 times 103 and 1 are more than 4,096.
#[test]
fn of_a_crowded_run() {
    let folder = Folder::new("of_a_crowded_run");
    let mut text = "timing-1\nring = inverter(ring) delay 1 initial 0\n".to_string();
    for node in 0..40 {
        text += &format!("late{node} = buffer(ring) delay 110 initial 0\n");
    }
    folder.write("card.net", text);
    folder.timing(&["run", "card.net", "--horizon", "1000"]).refused(
        "refused: more than 4,096 changes are pending after a tick, at tick 103; records written: 0\n\
         number: 20\nplace: tick 103 of the run\n",
    );
}

/// Where another call would do, a note says so.
#[test]
fn notes() {
    let folder = Folder::with_worked("notes");
    let noted = |arguments: &[&str]| {
        let ended = folder.timing(arguments);
        assert_eq!(ended.status, 1);
        ended
            .out
            .lines()
            .find_map(|line| line.strip_prefix("note: "))
            .map(str::to_string)
    };
    folder
        .timing(&["convert", "worked.net", "--to", "2", "-o", "second.sheet"])
        .finished("");
    let second = "as a sheet of the second edition it is accepted: give --edition 2";
    assert_eq!(noted(&["check", "second.sheet"]).as_deref(), Some(second));
    let first = "as a sheet of the first edition it is accepted: leave out --edition 2";
    assert_eq!(
        noted(&["check", "worked.sheet", "--edition", "2"]).as_deref(),
        Some(first)
    );
    folder.write("typed.net", "timing 1\ninput a\n");
    let text = "this was taken for a sheet; a text begins with the word timing-1 or timing-2";
    assert_eq!(noted(&["check", "typed.net"]).as_deref(), Some(text));
    folder.write("noise.sheet", [200, 9, 0]);
    assert_eq!(noted(&["check", "noise.sheet"]), None);
    // Without modules the bytes are a sheet of either edition: no other call would do.
    folder.write("both.net", "timing-1\ninput a\n");
    folder
        .timing(&["assemble", "both.net", "-o", "both.sheet"])
        .finished("");
    assert_eq!(noted(&["run", "both.sheet", "--horizon", "0"]), None);
    // A text says its edition itself: the bytes that this one gives would be accepted in the other.
    folder.write(
        "text.net",
        "timing-1\ninput a\nnode b initial X\nraw bytes from modules: 01 00 06 00 01 00 01 00 03 00 00 00 00 00",
    );
    assert_eq!(noted(&["check", "text.net"]), None);
    assert_eq!(noted(&["run", "worked.sheet", "--horizon", "0"]), None);
}

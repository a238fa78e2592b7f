//! Texts become sheets, and sheets texts.

use generate::sheets::*;
use plain::{worked_run, Edition};

use crate::support::Folder;

/// The worked run as show writes it: without its comment.
const SHOWN: &str = "timing-1

input section
scoop = nand(section, scoop) delay 3 initial X

drive section: 0 at 0, 1 at 5

watch section
watch scoop
";

#[test]
fn the_worked_run() {
    let folder = Folder::with_worked("the_worked_run");
    folder
        .timing(&["assemble", "worked.net", "-o", "made.sheet"])
        .finished("");
    assert_eq!(folder.read("made.sheet"), worked_run::SHEET);
    let numbered = SHOWN.replace("section", "n0").replace("scoop", "n1");
    folder.timing(&["show", "made.sheet"]).finished(&numbered);
    folder
        .timing(&["show", "made.sheet", "--names", "worked.net"])
        .finished(SHOWN);
    folder.timing(&["show", "worked.net"]).finished(SHOWN);
    folder
        .timing(&[
            "show",
            "made.sheet",
            "--names=worked.net",
            "-o",
            "shown.net",
        ])
        .finished("");
    assert_eq!(folder.read("shown.net"), SHOWN.as_bytes());
    folder
        .timing_reading(&["show", "-"], worked_run::SHEET)
        .finished(&numbered);
}

#[test]
fn the_second_edition() {
    let folder = Folder::new("the_second_edition");
    let card = sheet(
        &[4, 4, 4, 2],
        &[gate(MULTIPLEXER, [0, 1, 2], 3, 1)],
        &[],
        &[3],
    );
    folder.write("card.sheet", card.encode(Edition::Second));
    let text = "timing-2

input n0
input n1
input n2
n3 = multiplexer(n0, n1, n2) delay 1 initial X

watch n3
";
    folder
        .timing(&["show", "card.sheet", "--edition", "2"])
        .finished(text);
    folder.write("card.net", text);
    folder
        .timing(&["assemble", "card.net", "-o", "made.sheet"])
        .finished("");
    assert_eq!(folder.read("made.sheet"), folder.read("card.sheet"));
}

/// A mistake is told with its place, and nothing is written, also over what stood there.
#[test]
fn a_mistake() {
    let folder = Folder::new("a_mistake");
    folder.write(
        "card.net",
        "timing-1\ninput section\nscoop = nandd(section, scoop) delay 3 initial X\n",
    );
    folder.write("old.sheet", "old");
    let told = "timing: card.net:3:9: found `nandd`, expected a kind of module: constant, buffer, inverter, and, or, \
                xor, nand, nor, clocked_inverter, memory\n";
    folder
        .timing(&["assemble", "card.net", "-o", "card.sheet"])
        .failed(told);
    folder
        .timing(&["assemble", "card.net", "-o", "old.sheet"])
        .failed(told);
    for part in ["check", "show"] {
        folder.timing(&[part, "card.net"]).failed(told);
    }
    folder
        .timing(&["run", "card.net", "--horizon", "9"])
        .failed(told);
    assert_eq!(folder.names(), ["card.net", "old.sheet"]);
    assert_eq!(folder.read("old.sheet"), b"old");
}

/// A sheet is no text to be assembled.
#[test]
fn a_sheet_to_assemble() {
    let folder = Folder::with_worked("a_sheet_to_assemble");
    let ended = folder.timing(&["assemble", "worked.sheet", "-o", "made.sheet"]);
    let told = "timing: worked.sheet:1:1: found `\\u{2}`, expected `timing-1` or `timing-2`\n";
    ended.failed(told);
}

/// A refused card is written as it is, and said to be refused.
#[test]
fn a_loop() {
    let folder = Folder::new("a_loop");
    folder.write(
        "loop.net",
        "timing-1\n\nring = inverter(ring) delay 0 initial 0\n",
    );
    let ended = folder.timing(&["assemble", "loop.net", "-o", "loop.sheet"]);
    let told = "timing: loop.sheet is written, but refused: one or more modules of delay 0 form a closed chain, at \
                node 0; records written: 0; place: nodes, record 0 (ring), line 3 of loop.net\n";
    assert_eq!((ended.status, ended.err.as_str()), (0, told));
    folder
        .timing(&["show", "loop.sheet", "--names", "loop.net"])
        .finished("timing-1\n\nring = inverter(ring) delay 0 initial 0\n");
}

/// What has not the shape of a sheet is refused.
#[test]
fn broken_sheets() {
    let folder = Folder::new("broken_sheets");
    folder.write("short.sheet", &worked_run::SHEET[..20]);
    folder.timing(&["show", "short.sheet"]).refused(
        "refused: the sheet's bytes end inside a count or a record, at the sheet's byte 15; records written: 0\n\
         number: 2\nplace: drive, record 0\n",
    );
    folder.write("long.sheet", [worked_run::SHEET, &[0]].concat());
    folder.timing(&["show", "long.sheet"]).refused(
        "refused: bytes are left over after the sheet's end, at the sheet's byte 31; records written: 0\n\
         number: 17\nplace: the end, after the watched nodes\n",
    );
    folder.write("empty.sheet", "");
    folder.timing(&["show", "empty.sheet"]).refused(
        "refused: the sheet's bytes end inside a count or a record, at the sheet's byte 0; records written: 0\n\
         number: 2\nplace: the count of nodes\n",
    );
    // Refused for its first node, and cut short besides.
    folder.write("both.sheet", [1, 0, 7, 2, 0, 6]);
    let shown = folder.timing(&["show", "both.sheet"]);
    shown.finished("timing-1\n\nraw node n0 byte 7\n\nraw bytes from modules: 02 00 06\n");
    folder.write("both.net", &shown.out);
    assert_eq!(
        folder
            .timing(&["assemble", "both.net", "-o", "made.sheet"])
            .status,
        0
    );
    assert_eq!(folder.read("made.sheet"), [1, 0, 7, 2, 0, 6]);
    // A text is shown whatever its sheet is.
    let broken = "timing-1\n\ninput a\n\nraw bytes from modules: 01\n";
    folder.write("broken.net", broken);
    folder.timing(&["show", "broken.net"]).finished(broken);
}

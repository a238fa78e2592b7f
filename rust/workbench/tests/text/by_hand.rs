//! Cards written down by hand, and their sheets.

use generate::sheets::*;
use plain::{worked_run, Sheet};
use timing::Edition;
use workbench::card::Card;
use workbench::contents::Section;
use workbench::text;

const WORKED: &str = "timing-1

input section
scoop = nand(section, scoop) delay 3 initial X

drive section: 0 at 0, 1 at 5

watch section
watch scoop
";

fn assembled(source: &str) -> Card {
    text::assemble(source.as_bytes()).unwrap_or_else(|mistake| panic!("{mistake}\n{source}"))
}

/// The text assembles to the sheet, and the sheet with these names is shown as the text.
fn is(source: &str, edition: Edition, sheet: &Sheet) {
    let bytes = sheet.encode(match edition {
        Edition::First => plain::Edition::First,
        Edition::Second => plain::Edition::Second,
    });
    let card = assembled(source);
    assert_eq!((card.edition, &card.sheet), (edition, &bytes));
    let shown = text::write(&Card::of_sheet(edition, bytes, &card.names));
    assert_eq!(shown, source);
}

#[test]
fn the_worked_run() {
    is(WORKED, Edition::First, &worked_run::sheet());
}

/// Blanks, comments, the order of statements and line ends of another system change nothing but the order of
/// nodes and modules.
#[test]
fn another_layout() {
    let source = "timing-1# a card\r\n\
        watch scoop,section\r\n\
        \tdrive section :1 at 5,0 at 0 # the first shear\r\n\
        input section#\r\n\
        \r\n\
        scoop=nand ( section,scoop )delay 3 initial X";
    assert_eq!(assembled(source).sheet, worked_run::SHEET);
}

#[test]
fn every_kind() {
    let source = "timing-1

input a
input b
k = constant(Z) delay 4 initial 0
n3 = buffer(a) delay 1 initial X
n4 = inverter(a) delay 0 initial X
n5 = and(a, b) delay 1 initial 0
n6 = or(a, b) delay 1 initial 1
n7 = xor(b, a) delay 2 initial Z
n8 = nand(a, b) delay 10000 initial X
n9 = nor(n8, b) delay 1 initial X
bus = clocked_inverter(a, b) delay 1 initial X
held = memory(a, b) set {1} delay 0 initial X
never = memory(a, b) set {} delay 1 initial X
always = memory(a, b) set {0, 1, X, Z} delay 1 initial X
";
    let modules = [
        constant(3, 2, 4),
        gate(BUFFER, [0], 3, 1),
        gate(INVERTER, [0], 4, 0),
        gate(AND, [0, 1], 5, 1),
        gate(OR, [0, 1], 6, 1),
        gate(XOR, [1, 0], 7, 2),
        gate(NAND, [0, 1], 8, 10_000),
        gate(NOR, [8, 1], 9, 1),
        gate(CLOCKED_INVERTER, [0, 1], 10, 1),
        memory(2, [0, 1], 11, 0),
        memory(0, [0, 1], 12, 1),
        memory(ANY_VALUE, [0, 1], 13, 1),
    ];
    let nodes = [4, 4, 0, 2, 2, 0, 1, 3, 2, 2, 2, 2, 2, 2];
    is(source, Edition::First, &sheet(&nodes, &modules, &[], &[]));
}

#[test]
fn kinds_of_three_inputs() {
    let source = "timing-2

input a
input b
input c
n3 = and(a, b, c) delay 1 initial X
n4 = or(a, b, c) delay 1 initial X
n5 = xor(a, b, c) delay 1 initial X
n6 = nand(a, b, c) delay 1 initial X
n7 = nor(a, b, c) delay 1 initial X
n8 = multiplexer(a, b, c) delay 1 initial X
n9 = nor(a, b) delay 1 initial X
";
    let kinds = [AND_3, OR_3, XOR_3, NAND_3, NOR_3, MULTIPLEXER];
    let mut modules: Vec<_> = (3..)
        .zip(kinds)
        .map(|(output, kind)| gate(kind, [0, 1, 2], output, 1))
        .collect();
    modules.push(gate(NOR, [0, 1], 9, 1));
    let nodes = [4, 4, 4, 2, 2, 2, 2, 2, 2, 2];
    is(source, Edition::Second, &sheet(&nodes, &modules, &[], &[]));
}

/// A bus has a line for itself or for its first driver, and modules in another order than their nodes have
/// them apart.
#[test]
fn several_drivers_and_other_orders() {
    let source = "timing-1

input a
bus = clocked_inverter(a, on) delay 1 initial Z
node late initial 0
on = inverter(a) delay 2 initial 1
bus = clocked_inverter(on, a) delay 1
late = buffer(on) delay 0
";
    let modules = [
        gate(CLOCKED_INVERTER, [0, 3], 1, 1),
        gate(INVERTER, [0], 3, 2),
        gate(CLOCKED_INVERTER, [3, 0], 1, 1),
        gate(BUFFER, [3], 2, 0),
    ];
    is(
        source,
        Edition::First,
        &sheet(&[4, 3, 0, 1], &modules, &[], &[]),
    );
}

/// Long drives take several lines, each of which is whole.
#[test]
fn long_drives() {
    let events: Vec<Change> = (0..40).map(|at| (at * 25_000, 0, (at % 4) as u8)).collect();
    let shown = text::write(&Card::of_sheet(
        Edition::First,
        sheet(&[4], &[], &events, &[]).encode(plain::Edition::First),
        &[],
    ));
    let drive = shown.lines().filter(|line| line.starts_with("drive n0: "));
    assert!(drive.clone().all(|line| line.len() <= 100), "{shown}");
    assert_eq!(drive.count(), 6);
    assert_eq!(assembled(&shown).contents.drive.len(), 40);
}

/// What no accepted sheet has is written, too.
#[test]
fn raw_statements() {
    let source = "timing-1

input a
raw node b byte 9
@7 = and(a, @200) delay 65535
raw module kind 77 parameter 3 output @1 inputs @0 @5 delay 2
raw module kind 2 parameter 0 output @1 inputs @0 @1 delay 2

raw event tick 5 node a value 1
raw event tick 5 node a value 9
raw event tick 4294967295 node @250 value 0

raw watch b
raw watch @9
raw watch a

raw bytes from end: 00 FF
";
    let card = assembled(source);
    assert_eq!(text::write(&card), source);
    assert_eq!(card.contents.rest.bytes, [0, 255]);
    assert_eq!(card.line(Section::Nodes, 1), Some(4));
    assert_eq!(card.line(Section::Modules, 2), Some(7));
    assert_eq!(card.line(Section::Drive, 2), Some(11));
    assert_eq!(card.line(Section::Watched, 0), Some(13));
    assert_eq!(card.line(Section::Watched, 3), None);
}

/// A sheet that ends too early is written up to its last whole section.
#[test]
fn the_rest_of_a_damaged_sheet() {
    let source = "timing-2

raw node a byte 5

raw bytes from modules: 02 00 06
";
    let card = assembled(source);
    assert_eq!(card.sheet, [1, 0, 5, 2, 0, 6]);
    assert_eq!(text::write(&card), source);
    let source = "timing-1

raw node a byte 5
a = buffer(a) delay 1

raw bytes from drive:
";
    let card = assembled(source);
    assert_eq!(card.sheet, [1, 0, 5, 1, 0, 1, 0, 0, 0, 0, 1, 0]);
    assert_eq!(text::write(&card), source);
}

/// Events have the lines that they stand in, whatever their order.
#[test]
fn lines_of_sorted_events() {
    let card = assembled(
        "timing-1\ndrive a: 1 at 7, 0 at 0\ndrive b: 0 at 3\ninput b\ninput a\nwatch a\nwatch b\n",
    );
    let lines = card.lines.expect("it was a text");
    assert_eq!(lines.nodes, [4, 5]);
    assert_eq!(lines.drive, [2, 3, 2]);
    assert_eq!(lines.watched, [7, 6]);
}

/// What begins with another word is a sheet.
#[test]
fn first_words() {
    let editions = [
        ("timing-1", Some(Edition::First)),
        ("timing-2\n", Some(Edition::Second)),
        ("timing-1# card", Some(Edition::First)),
        ("timing-1 ", Some(Edition::First)),
        ("timing-12", None),
        ("timing-1x", None),
        ("timing-3\n", None),
        (" timing-1", None),
        ("\u{FEFF}timing-1", None),
        ("timing-1é", None),
        ("timing", None),
        ("", None),
    ];
    for (source, edition) in editions {
        assert_eq!(text::edition_of(source.as_bytes()), edition, "{source:?}");
    }
}

/// A word of the text form can be a name.
#[test]
fn any_word_is_a_name() {
    let source = "timing-1

input input
node = buffer(input) delay 1 initial X
1 = buffer(node) delay 1 initial X
größe = nand(1, watch) delay 1 initial X
watch = memory(drive, set) set {1} delay 1 initial X
input drive
input set

drive input: 0 at 0
drive drive: 1 at 0

watch 1
watch watch
";
    let card = assembled(source);
    assert_eq!(
        card.names,
        ["input", "node", "1", "größe", "watch", "drive", "set"]
    );
    assert_eq!(text::write(&card), source);
}

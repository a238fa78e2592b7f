//! Value change dumps, read back and compared with the listing.

#[path = "reading/finished.rs"]
mod finished;
#[path = "reading/vcd.rs"]
mod reading;

use std::io::{self, Write};

use generate::sheets::{gate, sheet, INVERTER};
use generate::Generator;
use plain::{Edition, HIGH, INPUT, LOW, NONE, UNKNOWN};
use timing::Level;
use workbench::vcd;

use finished::Finished;
use reading::{read, Change, Dump};

fn dumped(run: &Finished) -> String {
    let mut bytes = Vec::new();
    vcd::write(&run.run(), &mut bytes).expect("there is room");
    String::from_utf8(bytes).expect("names and titles are texts")
}

/// The changes that the listing has, in its order.
fn listed(run: &Finished) -> Vec<Change> {
    let change = |record: timing::Record| {
        let name = run.names[usize::from(record.node)].clone();
        (
            record.tick,
            name,
            record.value.letter().to_ascii_lowercase(),
        )
    };
    run.listing.iter().map(change).collect()
}

/// Asserts that the dump says what the listing does, and nothing else.
fn same(run: &Finished, whence: &str) -> Dump {
    let dump = read(&dumped(run)).unwrap_or_else(|wrong| panic!("{whence}: {wrong}"));
    let watched = run.watched.iter().map(|&node| run.run().name(node));
    assert!(dump.names.iter().eq(watched), "{whence}: {dump:?}");
    assert_eq!(dump.changes, listed(run), "{whence}");
    assert_eq!(dump.last, run.horizon, "{whence}");
    assert_eq!(dump.said["$timescale"], "1 ns", "{whence}");
    dump
}

#[test]
fn the_worked_run() {
    let run = Finished::worked();
    same(&run, "the worked run");
    let expected = "\
$version timing VERSION $end
$comment
  card worked
  SHA-256 of the sheet's bytes DIGEST
  horizon 12
  one unit of time is one tick
$end
$timescale 1 ns $end
$scope module worked $end
$var wire 1 ! section $end
$var wire 1 \" scoop $end
$upscope $end
$enddefinitions $end
#0
$dumpvars
0!
x\"
$end
#3
1\"
#5
1!
#8
0\"
#11
1\"
#12
";
    // The digest is what sha256sum prints.
    let digest = "9a5c8a58e242f4bb17af1ecc462befa6f12155d97d233bd19928a0245c8c066e";
    let expected = expected
        .replace("VERSION", timing::VERSION)
        .replace("DIGEST", digest);
    assert_eq!(dumped(&run), expected);
}

/// An input that has every value, and its inverse two ticks later. The inverse of no value is unknown.
fn small() -> Finished {
    let drive = [(0, 1, NONE), (4, 1, HIGH), (9, 1, UNKNOWN), (10, 1, LOW)];
    let modules = [gate(INVERTER, [1], 0, 2)];
    let card = sheet(&[LOW, INPUT], &modules, &drive, &[0, 1]);
    Finished::named(
        &card,
        13,
        "small card, $5",
        &["bus[0]/inverse", "größe.1-a"],
    )
}

#[test]
fn a_small_card_by_hand() {
    let run = small();
    let dump = same(&run, "small");
    let change = |(tick, name, value): (u32, &str, char)| (tick, name.to_string(), value);
    let expected = [
        (0, "bus[0]/inverse", '0'),
        (0, "größe.1-a", 'z'),
        (2, "bus[0]/inverse", 'x'),
        (4, "größe.1-a", '1'),
        (6, "bus[0]/inverse", '0'),
        (9, "größe.1-a", 'x'),
        (10, "größe.1-a", '0'),
        (11, "bus[0]/inverse", 'x'),
        (12, "bus[0]/inverse", '1'),
    ];
    assert_eq!(dump.changes, expected.map(change));
    assert_eq!(dump.last, 13);
    assert_eq!(dump.scope, "small_card,__5");
    assert!(dump.said["$comment"].contains("card small_card,__5"));
}

#[test]
fn titles_are_one_word() {
    for (title, expected) in [
        ("", "card"),
        (" ", "_"),
        ("$end", "_end"),
        ("a\tb\u{a0}c\nd", "a_b_c_d"),
        ("Öfen/3", "Öfen/3"),
    ] {
        let title = title.to_string();
        let run = Finished { title, ..small() };
        assert_eq!(same(&run, expected).scope, expected);
    }
}

/// What generated runs met.
#[derive(Debug, Default)]
struct Met {
    /// Runs that list each value, by its byte.
    values: [u32; 4],
    /// Runs without a watched node.
    unwatched: u32,
    /// Runs with more watched nodes than one character can name.
    two_characters: u32,
    /// Runs with a change after tick 0.
    lively: u32,
}

impl Met {
    fn add(&mut self, run: &Finished) {
        for value in Level::ALL {
            let is_listed = run.listing.iter().any(|record| record.value == value);
            self.values[usize::from(value.byte())] += u32::from(is_listed);
        }
        self.unwatched += u32::from(run.watched.is_empty());
        self.two_characters += u32::from(run.watched.len() > 94);
        self.lively += u32::from(run.listing.iter().any(|record| record.tick > 0));
    }
}

#[test]
fn generated_runs() {
    for edition in Edition::ALL {
        let seed = 5;
        let mut generator = Generator::of(edition, seed);
        let mut met = Met::default();
        for place in 0..4_000 {
            let run = Finished::next(edition, &mut generator);
            same(&run, &format!("{edition:?}, seed {seed}, run {place}"));
            met.add(&run);
        }
        println!("{edition:?}: {met:?}");
        assert!(met.values.iter().all(|&runs| runs >= 500), "{met:?}");
        assert!(met.unwatched >= 100, "{met:?}");
        assert!(met.two_characters >= 10, "{met:?}");
        assert!(met.lively >= 1_000, "{met:?}");
    }
}

/// Every node is watched, and each has a code of its own.
#[test]
fn all_256_nodes() {
    let run = Finished::inputs(256, 1);
    let text = dumped(&run);
    assert_eq!(same(&run, "all").changes.len(), 256);
    for (code, node) in [("!", 0), ("~", 93), ("!\"", 94), ("~\"", 187), ("d#", 255)] {
        let line = format!("\n$var wire 1 {code} {} $end\n", run.names[node]);
        assert!(text.contains(&line), "{line}");
    }
}

/// Takes pieces that are short, and counts their bytes.
struct Pieces {
    bytes: usize,
}

impl Write for Pieces {
    fn write(&mut self, piece: &[u8]) -> io::Result<usize> {
        assert!(piece.len() <= 1 << 16, "{} bytes at once", piece.len());
        self.bytes += piece.len();
        Ok(piece.len())
    }

    fn flush(&mut self) -> io::Result<()> {
        Ok(())
    }
}

#[test]
fn a_million_records_are_written_piece_by_piece() {
    let run = Finished::rings(&[1], 1_000_000);
    let mut pieces = Pieces { bytes: 0 };
    vcd::write(&run.run(), &mut pieces).expect("all is taken");
    assert_eq!(pieces.bytes, dumped(&run).len());
    assert_eq!(same(&run, "ring").changes.len(), 1_000_000);
}

/// Where not all is taken, the error is handed on.
#[test]
fn no_room() {
    let run = small();
    let length = dumped(&run).len();
    for bytes in 0..=length {
        let mut room = vec![0; length];
        let written = vcd::write(&run.run(), &mut &mut room[..bytes]);
        assert_eq!(written.is_ok(), bytes == length, "{bytes} bytes");
    }
}

/// The reader refuses dumps with one fault, so it can fail.
#[test]
fn faulty_dumps_are_refused() {
    let good = dumped(&Finished::worked());
    let faults = [
        ("$version", "$versions"),
        ("$timescale 1 ns $end", "$timescale 1 ns"),
        ("$timescale 1 ns $end", "$version $end"),
        ("$scope module", "$scope"),
        ("$var wire 1 ! section", "$var wire 1 \u{e9} section"),
        ("$var wire 1 ! section", "$var wire 8 ! section"),
        ("$var wire 1 ! section", "$var wire 1 ! sec tion"),
        ("$var wire 1 ! section", "$var wire 1 \" section"),
        ("$var wire 1 ! section", "$var wire 1 ! scoop"),
        ("$upscope $end", ""),
        ("$enddefinitions $end", ""),
        ("#0\n", ""),
        ("$dumpvars", ""),
        ("0!\nx\"\n$end", "0!\n$end"),
        ("0!\nx\"\n$end", "0!\nx\"\n1!\n$end"),
        ("0!\nx\"\n$end", "0!\nx\""),
        ("#3\n1\"", "#3\n1#"),
        ("#3\n1\"", "#3\nX\""),
        ("#3\n1\"", "#3\nx\""),
        ("#3\n1\"", "#3\n1 \""),
        ("#3\n1\"", "#3\n1\"\n0\""),
        ("#3\n1\"", "#3\n#4\n1\""),
        ("#5", "#3"),
        ("#5", "#2"),
        ("#5", "#+5"),
        ("#5", "#"),
        ("#5", "#99999999999"),
        ("#12\n", ""),
        ("#12\n", "#12\n0!\n"),
        ("#12\n", "#12\n#12\n"),
    ];
    assert_eq!(read(&good).map(|dump| dump.last), Ok(12));
    for (from, to) in faults {
        let faulty = good.replacen(from, to, 1);
        assert_ne!(faulty, good, "{from}");
        assert!(
            read(&faulty).is_err(),
            "{from} as {to}: {:?}",
            read(&faulty)
        );
    }
}

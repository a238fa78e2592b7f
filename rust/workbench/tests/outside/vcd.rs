//! A dump that GTKWave's converters take: it becomes an FST file and a dump again, with the same changes.

#[path = "../reading/vcd.rs"]
mod reading;

use std::fs::{self, File};
use std::path::{Path, PathBuf};
use std::process::Command;

use generate::sheets::{gate, sheet, INVERTER};
use plain::{Edition, HIGH, INPUT, LOW, NONE, UNKNOWN};
use workbench::run::Run;
use workbench::vcd;

use reading::{read, Dump};

pub const TOOLS: [&str; 2] = ["vcd2fst", "fst2vcd"];

const IN: &str = "in.vcd";
const OUT: &str = "out.fst";
const BACK: &str = "back.vcd";

/// Panics where the converters refuse the dump or give other changes.
pub fn check() {
    let folder = folder();
    dump(&folder.join(IN));
    let [there, back] = TOOLS;
    convert(there, &[IN, OUT], &folder);
    convert(back, &[OUT, "-o", BACK], &folder);
    let [ours, theirs] = [IN, BACK].map(|name| read_sorted(&folder.join(name)));
    let values: String = ours.changes.iter().map(|&(.., value)| value).collect();
    assert!(
        "01xz".chars().all(|value| values.contains(value)),
        "{ours:?}"
    );
    assert_eq!(theirs.scope, ours.scope);
    assert_eq!(theirs.said["$version"], ours.said["$version"]);
    assert_eq!(theirs.names, ours.names);
    assert_eq!(theirs.changes, ours.changes);
    assert_eq!(theirs.last, ours.last);
}

/// An empty folder.
fn folder() -> PathBuf {
    let folder = Path::new(env!("CARGO_TARGET_TMPDIR")).join("outside-vcd");
    if folder.exists() {
        fs::remove_dir_all(&folder).expect("it is ours");
    }
    fs::create_dir_all(&folder).expect("it is ours");
    folder
}

/// Writes the dump of a run with every value, after whose last change time passes. Of its 100 watched nodes
/// some have codes of two characters, and the names have every sort of character that names have.
fn dump(path: &Path) {
    let drive = [(0, 0, NONE), (4, 0, HIGH), (9, 0, UNKNOWN), (10, 0, LOW)];
    let modules: Vec<_> = (1..100)
        .map(|node| gate(INVERTER, [node - 1], node, 1))
        .collect();
    let mut nodes = vec![LOW; 100];
    nodes[0] = INPUT;
    let watched: Vec<u8> = (0..100).collect();
    let bytes = sheet(&nodes, &modules, &drive, &watched).encode(Edition::First);
    let names: Vec<String> = watched
        .iter()
        .map(|node| format!("{node}/Größe.a-[{node}]"))
        .collect();
    let library = timing::Sheet::new(timing::Edition::First, &bytes);
    let run = Run {
        title: "outside",
        sheet: &bytes,
        names: &names,
        watched: &watched,
        horizon: 150,
        listing: &library.run_whole(150).expect("it is accepted"),
    };
    let mut file = File::create(path).expect("the folder is there");
    vcd::write(&run, &mut file).expect("there is room");
}

fn convert(tool: &str, arguments: &[&str], folder: &Path) {
    let status = Command::new(tool)
        .args(arguments)
        .current_dir(folder)
        .status()
        .unwrap_or_else(|error| panic!("{tool}: {error}"));
    assert!(status.success(), "{tool}: {status}");
}

/// The dump of a file. Its changes are sorted, since the converters keep no order within a tick. Nothing else
/// is lenient: they repeat no value and keep the last time.
fn read_sorted(path: &Path) -> Dump {
    let text = fs::read_to_string(path).expect("it was written");
    let mut dump = read(&text).unwrap_or_else(|wrong| panic!("{}: {wrong}", path.display()));
    dump.changes.sort();
    dump
}

//! Every help fits a screen and has one example, which works.

use std::fs;
use std::path::Path;

use crate::support::Folder;

const PARTS: [&str; 8] = [
    "assemble", "show", "check", "run", "pulses", "convert", "load", "import",
];

/// A terminal's lines and columns, with a line for the prompt.
const LINES: usize = 23;
const COLUMNS: usize = 80;

/// The command in a help's example.
fn example(folder: &Folder, arguments: &[&str]) -> String {
    let ended = folder.timing(arguments);
    assert_eq!((ended.status, ended.err.as_str()), (0, ""));
    assert!(ended.out.lines().count() <= LINES, "{}", ended.out);
    assert!(
        ended.out.lines().all(|line| line.len() <= COLUMNS),
        "{}",
        ended.out
    );
    let parts: Vec<&str> = ended.out.split("\nExample:\n  timing ").collect();
    let [_, example] = parts[..] else {
        panic!("not one example: {}", ended.out);
    };
    example.trim_end().to_string()
}

#[test]
fn fits_a_screen_and_works() {
    let folder = Folder::with_worked("fits_a_screen_and_works");
    let examples = Path::new(env!("CARGO_MANIFEST_DIR")).join("../../examples");
    fs::create_dir(folder.path("examples")).expect("it is a new folder");
    for name in ["worked.net", "c17.net", "c17.bench"] {
        fs::copy(examples.join(name), folder.path("examples").join(name)).expect("it is there");
    }
    for part in PARTS {
        let example = example(&folder, &[part, "--help"]);
        let words: Vec<&str> = example.split(' ').collect();
        assert_eq!(words[0], part);
        let ended = folder.timing(&words);
        assert_eq!((ended.status, ended.err.as_str()), (0, ""), "{example}");
    }
    let whole = example(&folder, &["--help"]);
    let words: Vec<&str> = whole.split(' ').collect();
    assert_eq!(folder.timing(&words).status, 0);
    for part in PARTS {
        let all = folder.timing(&["help"]).out;
        assert!(all.contains(&format!("  timing {part} ")), "{part}");
    }
}

#[test]
fn the_version() {
    let folder = Folder::new("the_version");
    folder
        .timing(&["--version"])
        .finished(&format!("timing {}\n", timing::VERSION));
}

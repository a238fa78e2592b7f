//! The README's text is the worked run's, and its picture is what the command draws.

use std::fs;
use std::path::{Path, PathBuf};
use std::process::Command;

use workbench::text;

fn repository() -> PathBuf {
    Path::new(env!("CARGO_MANIFEST_DIR")).join("../..")
}

fn page() -> String {
    fs::read_to_string(repository().join("README.md")).expect("there is a page")
}

/// The lines of the page that are set off, in blocks.
fn blocks(page: &str) -> Vec<String> {
    let mut blocks = vec![String::new()];
    for line in page.lines() {
        match line.strip_prefix("    ") {
            Some(code) => blocks
                .last_mut()
                .expect("there is one")
                .extend([code, "\n"]),
            None => blocks.push(String::new()),
        }
    }
    blocks.retain(|block| !block.is_empty());
    blocks
}

#[test]
fn the_text() {
    let blocks = blocks(&page());
    let texts: Vec<&String> = blocks
        .iter()
        .filter(|block| text::edition_of(block.as_bytes()).is_some())
        .collect();
    assert_eq!(texts.len(), 1);
    let card = text::assemble(texts[0].as_bytes()).expect("it has no mistake");
    assert_eq!(card.sheet, plain::worked_run::SHEET);
}

/// The command on the page that draws, with the drawing put elsewhere, gives the picture on the page.
#[test]
fn the_picture() {
    let page = page();
    let (_, rest) = page
        .split_once("release/timing run ")
        .expect("there is a command");
    let line = rest.lines().next().expect("it has a line");
    let target = Path::new(env!("CARGO_TARGET_TMPDIR")).join("readme.svg");
    let (arguments, _) = line.split_once(" --svg ").expect("it draws");
    let output = Command::new(env!("CARGO_BIN_EXE_timing"))
        .arg("run")
        .args(arguments.split(' '))
        .arg("--svg")
        .arg(&target)
        .current_dir(repository())
        .output()
        .expect("it can be started");
    assert!(output.status.success());
    assert!(page.contains("](docs/worked.svg)"), "the page shows it");
    let drawn = fs::read_to_string(target).expect("it was drawn");
    let shown = fs::read_to_string(repository().join("docs/worked.svg")).expect("it is there");
    assert!(
        drawn == shown,
        "docs/worked.svg is not what the command draws now"
    );
}

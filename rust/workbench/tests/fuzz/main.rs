//! Bad input: mutated texts and netlists give an error with a place or a sheet, never a panic, and take little
//! memory and time.

mod counted;
mod large;
mod mutated;
mod netlists;
mod texts;

use std::time::{Duration, Instant};

use workbench::mistake::Mistake;

/// What one file may take: this, and so many times its bytes.
const MOST_MEMORY: usize = 64 << 20;
const MOST_TIMES: usize = 10;

/// Some ten times what the slowest takes while every core is busy; what grows with the square of a file's length takes hours.
const MOST_TIME: Duration = Duration::from_secs(20);

/// What comes of a file, within what it may take.
fn bounded<T>(source: &[u8], read: impl FnOnce(&[u8]) -> T) -> T {
    let start = Instant::now();
    let (outcome, memory) = counted::most_memory(|| read(source));
    let time = start.elapsed();
    let shown = || String::from_utf8_lossy(&source[..source.len().min(2_000)]).into_owned();
    assert!(
        memory <= MOST_TIMES * source.len() + MOST_MEMORY,
        "{memory} bytes: {}",
        shown()
    );
    assert!(time < MOST_TIME, "{time:?}: {}", shown());
    outcome
}

/// Asserts that a mistake's place is in the file: at one of its characters, or where a line ends.
fn is_within(source: &[u8], mistake: &Mistake) {
    let mut lines = source.split(|&byte| byte == b'\n');
    let line = lines.nth(mistake.line - 1);
    let line = line.unwrap_or_else(|| panic!("no line {mistake}"));
    let characters = String::from_utf8_lossy(line).chars().count();
    assert!((1..=characters + 1).contains(&mistake.column), "{mistake}");
    assert!(!mistake.found.is_empty() && !mistake.expected.is_empty());
    let said = mistake.to_string();
    assert!(
        said.len() < 1_000 && !said.contains(char::is_control),
        "{said:?}"
    );
}

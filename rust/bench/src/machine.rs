//! The machine and the day, which a table of times needs beside it.

use std::fs;
use std::process::Command;
use std::thread;

/// Cores, the processor's name where the system tells it, and the date.
pub fn described() -> String {
    let cores = thread::available_parallelism().map_or(1, usize::from);
    let processor = processor().map_or_else(String::new, |name| format!(" ({name})"));
    format!("{cores} cores{processor}, {}", date())
}

fn processor() -> Option<String> {
    let told = fs::read_to_string("/proc/cpuinfo").ok()?;
    let line = told.lines().find(|line| line.starts_with("model name"))?;
    let (_, name) = line.split_once(':')?;
    Some(name.trim().to_string())
}

fn date() -> String {
    let printed = Command::new("date").args(["-u", "+%Y-%m-%d"]).output();
    let printed = printed.expect("the system tells the date").stdout;
    String::from_utf8_lossy(&printed).trim().to_string()
}

//! Simulators that are not ours: Icarus Verilog and GHDL, where they are installed.

use std::fs::{self, File};
use std::io;
use std::path::PathBuf;
use std::process::{self, Command};
use std::time::Instant;

use generate::ends::ended;
use generate::sheets::{Change, Record};
use plain::{Sheet, HIGH, LOW, NONE, UNKNOWN};

use crate::timed::Timed;
use crate::translate::{verilog, vhdl};

/// A simulator that reads a text and prints the watched nodes' values at each change.
pub struct Simulator {
    pub name: &'static str,
    /// What prints its version.
    version: &'static [&'static str],
    file: &'static str,
    translate: fn(&Sheet, u32) -> String,
    /// The time in the translation that is tick 0.
    tick_0: u32,
    /// Commands before the one that is timed, which comes last.
    steps: &'static [&'static [&'static str]],
}

pub const ALL: [Simulator; 2] = [
    Simulator {
        name: "Icarus Verilog",
        version: &["iverilog", "-V"],
        file: "sheet.v",
        translate: verilog::text,
        tick_0: 1,
        steps: &[
            &["iverilog", "-g2005", "-o", "sheet.vvp", "sheet.v"],
            &["vvp", "-n", "sheet.vvp"],
        ],
    },
    Simulator {
        name: "GHDL",
        version: &["ghdl", "--version"],
        file: "sheet.vhd",
        translate: vhdl::text,
        tick_0: 0,
        steps: &[
            &["ghdl", "-a", "--std=08", "sheet.vhd"],
            &["ghdl", "-e", "--std=08", "sheet"],
            &["ghdl", "-r", "--std=08", "sheet"],
        ],
    },
];

impl Simulator {
    pub fn is_installed(&self) -> bool {
        self.version().is_some()
    }

    /// Its name and version: the first word of what it prints that begins with a digit.
    pub fn title(&self) -> String {
        let printed = self.version().unwrap_or_default();
        let is_number = |word: &&str| word.starts_with(|c: char| c.is_ascii_digit());
        match printed.split_whitespace().find(is_number) {
            Some(number) => format!("{} {number}", self.name),
            None => self.name.to_string(),
        }
    }

    fn version(&self) -> Option<String> {
        let [command, arguments @ ..] = self.version else {
            return None;
        };
        let output = Command::new(command).args(arguments).output().ok()?;
        Some(String::from_utf8_lossy(&output.stdout).into_owned())
    }

    /// Translates and simulates the sheet.
    pub fn run(&self, sheet: &Sheet, horizon: u32) -> io::Result<Timed> {
        let folder = Folder::new()?;
        fs::write(
            folder.path.join(self.file),
            (self.translate)(sheet, horizon),
        )?;
        let mut seconds = 0.0;
        for step in self.steps {
            let start = Instant::now();
            folder.run(step)?;
            seconds = start.elapsed().as_secs_f64();
        }
        let printed = fs::read_to_string(folder.path.join(PRINTED))?;
        Ok(Timed {
            records: self.records(sheet, horizon, &printed),
            seconds,
        })
    }

    /// The records that the printed lines give. A simulator that is not ours prints no ends: they are
    /// those that its changes have.
    pub fn records(&self, sheet: &Sheet, horizon: u32, printed: &str) -> Vec<Record> {
        ended(&self.changes(sheet, horizon, printed), horizon)
    }

    /// The changes in the printed lines: a time and a character for each watched node. Other lines are
    /// the simulator's own.
    fn changes(&self, sheet: &Sheet, horizon: u32, printed: &str) -> Vec<Change> {
        let mut changes = Vec::new();
        let mut before = vec![None; sheet.watched.len()];
        for (time, values) in printed.lines().filter_map(time_and_values) {
            let tick = time - self.tick_0;
            if tick >= horizon {
                continue;
            }
            let nodes = sheet.watched.iter().zip(&mut before);
            for ((&node, before), value) in nodes.zip(values.chars()) {
                if before.replace(value) != Some(value) {
                    changes.push((tick, node, level(value)));
                }
            }
        }
        changes
    }
}

fn time_and_values(line: &str) -> Option<(u32, &str)> {
    let (time, values) = line.trim().split_once(' ')?;
    Some((time.parse().ok()?, values))
}

/// Where a command's output goes.
const PRINTED: &str = "printed";

/// A folder of its own, gone at the end.
struct Folder {
    path: PathBuf,
}

impl Folder {
    fn new() -> io::Result<Folder> {
        let path = std::env::temp_dir().join(format!("timing-bench-{}", process::id()));
        fs::create_dir_all(&path)?;
        Ok(Folder { path })
    }

    fn run(&self, step: &[&str]) -> io::Result<()> {
        let status = Command::new(step[0])
            .args(&step[1..])
            .current_dir(&self.path)
            .stdout(File::create(self.path.join(PRINTED))?)
            .status()?;
        if status.success() {
            Ok(())
        } else {
            Err(io::Error::other(format!("{step:?}: {status}")))
        }
    }
}

impl Drop for Folder {
    fn drop(&mut self) {
        // What is left behind in the system's folder for such things harms nobody.
        let _ = fs::remove_dir_all(&self.path);
    }
}

fn level(printed: char) -> u8 {
    match printed {
        '0' => LOW,
        '1' => HIGH,
        'z' | 'Z' => NONE,
        _ => UNKNOWN,
    }
}

//! The commands of the page print what it shows.

use std::collections::HashMap;
use std::fs;
use std::path::{Path, PathBuf};
use std::process::{self, Stdio};

use crate::page::{is_code, is_command, repository, text, Command, Page};

/// What a command did.
#[derive(Debug, PartialEq, Eq)]
pub struct Ran {
    /// Standard output, and then standard error.
    pub printed: String,
    pub status: Option<i32>,
}

/// What each command did, by its words.
pub type Runs = HashMap<String, Ran>;

/// A new folder of a test, where the examples are.
pub fn folder(name: &str) -> PathBuf {
    let folder = Path::new(env!("CARGO_TARGET_TMPDIR")).join(format!("guide-{name}"));
    if folder.exists() {
        fs::remove_dir_all(&folder).unwrap();
    }
    fs::create_dir_all(folder.join("examples")).unwrap();
    for file in crate::examples::cards() {
        fs::copy(repository().join(&file), folder.join(&file)).unwrap();
    }
    folder
}

/// Runs `timing` in a folder.
pub fn timing(folder: &Path, arguments: &[&str]) -> Ran {
    let output = process::Command::new(env!("CARGO_BIN_EXE_timing"))
        .args(arguments)
        .current_dir(folder)
        .stdin(Stdio::null())
        .output()
        .expect("the command is built");
    let printed = [output.stdout, output.stderr].concat();
    Ran {
        printed: String::from_utf8(printed).expect("it prints text"),
        status: output.status.code(),
    }
}

/// Runs the commands in their order in a folder.
pub fn run_all(commands: &[Command], folder: &Path) -> Runs {
    let mut runs = Runs::new();
    for command in commands {
        let words: Vec<&str> = command.words.split_whitespace().collect();
        let ran = match words[..] {
            ["timing", ref arguments @ ..] => timing(folder, arguments),
            ["mkdir", "-p", name] => {
                fs::create_dir_all(folder.join(name)).unwrap();
                Ran {
                    printed: String::new(),
                    status: Some(0),
                }
            }
            _ => panic!("`{}` is not run", command.words),
        };
        runs.insert(command.words.clone(), ran);
    }
    runs
}

/// The commands that did something else than they are shown to, or are shown twice.
pub fn faults(commands: &[Command], runs: &Runs) -> Vec<String> {
    let mut faults = Vec::new();
    for (place, command) in commands.iter().enumerate() {
        let Command { words, printed } = command;
        let shown = Ran {
            printed: printed.clone(),
            status: Some(status(printed)),
        };
        if runs.get(words) != Some(&shown) {
            faults.push(format!("{words}: {shown:?}, but {:?}", runs.get(words)));
        }
        if commands[..place]
            .iter()
            .any(|before| before.words == *words)
        {
            faults.push(format!("{words} is shown twice"));
        }
    }
    faults
}

/// The exit status that goes with what is printed.
fn status(printed: &str) -> i32 {
    match printed.split(' ').next() {
        Some("refused:") => 1,
        Some("timing:") => 2,
        _ => 0,
    }
}

#[test]
fn the_commands_print_what_is_shown() {
    let text = text();
    let commands = Page::of(&text).commands;
    assert!(
        commands.len() >= 12,
        "{} commands are shown",
        commands.len()
    );
    let prompts = text
        .lines()
        .filter(|line| is_code(line) && is_command(line));
    assert_eq!(commands.len(), prompts.count());
    let runs = run_all(&commands, &folder("commands"));
    assert_eq!(faults(&commands, &runs), [""; 0]);
    let refused = commands
        .iter()
        .filter(|command| status(&command.printed) == 1);
    assert!(refused.count() >= 4, "too few refusals are shown");
}

/// A file is there after a command that finished, and is not after one that was refused.
#[test]
fn files_are_written() {
    let text = text();
    let commands = Page::of(&text).commands;
    let folder = folder("files");
    run_all(&commands, &folder);
    let mut found = [0, 0];
    for Command { words, printed } in &commands {
        if let Some((_, file)) = words.split_once(" -o ") {
            let status = status(printed);
            assert_eq!(folder.join(file).exists(), status == 0, "{words}");
            found[usize::from(status == 0)] += 1;
        }
    }
    assert_eq!(found, [1, 2]);
}

/// Every option that the page names is one of the command's, which its help has.
#[test]
fn the_options_are_there() {
    let folder = folder("options");
    let all = timing(&folder, &["--help"]).printed;
    let parts = all
        .lines()
        .filter_map(|line| line.strip_prefix("  timing "));
    let names: Vec<&str> = parts.filter_map(|part| part.split(' ').next()).collect();
    assert!(names.contains(&"run") && names.contains(&"load"), "{all}");
    let mut help = String::new();
    for name in names {
        help += &timing(&folder, &[name, "--help"]).printed;
    }
    let is_part = |c: char| c.is_alphanumeric() || c == '-';
    let options = |text: &str| -> Vec<String> {
        let words = text.split(|c| !is_part(c)).map(str::to_string);
        words.filter(|word| word.starts_with("--")).collect()
    };
    let there = options(&help);
    // `--release` is cargo's, and a line under a table's head is no option.
    let others = ["--release", "---", "--help"];
    let mut named = options(&text());
    named.retain(|option| !others.contains(&option.as_str()));
    assert!(named.len() >= 10, "{named:?}");
    for option in named {
        assert!(there.contains(&option), "there is no {option}");
    }
}

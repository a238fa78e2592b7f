//! Several files, or a folder of them: a line each, and a table at the end.

use std::fs;
use std::io::{self, IsTerminal, Write};
use std::path::{Path, PathBuf};

use timing::{sentence, Refusal};

use super::arguments::Arguments;
use super::input::{self, Input, NAMES};
use super::{output, Failed, Outcome, Status};
use crate::place::place;

/// The endings of the files of a folder that are cards.
const ENDINGS: [&str; 2] = ["net", "sheet"];

/// What was asked for: one card, or several to go through.
pub enum Files {
    One(PathBuf),
    Several(Vec<PathBuf>),
}

/// What a part answers of a card: a count, or a refusal.
pub type Answer = Result<u32, Refusal>;

/// The files of the arguments, and of the folders among them.
pub fn files(arguments: &Arguments) -> Outcome<Files> {
    if arguments.files.is_empty() {
        return Err(Failed::Use("no file is given".to_string()));
    }
    if let [file] = &arguments.files[..] {
        if !file.is_dir() {
            return Ok(Files::One(file.clone()));
        }
    }
    if arguments.path(NAMES).is_some() {
        return Err(Failed::Use(format!("{NAMES} takes one file")));
    }
    let mut files = Vec::new();
    for path in &arguments.files {
        match path.is_dir() {
            true => files.extend(cards_in(path)?),
            false => files.push(path.clone()),
        }
    }
    Ok(Files::Several(files))
}

/// The cards of a folder, by their names.
fn cards_in(folder: &Path) -> Outcome<Vec<PathBuf>> {
    let failed = |error: io::Error| Failed::Work(format!("{}: {error}", folder.display()));
    let mut cards = Vec::new();
    for entry in fs::read_dir(folder).map_err(failed)? {
        let path = entry.map_err(failed)?.path();
        let is_card = ENDINGS
            .iter()
            .any(|&ending| path.extension().is_some_and(|found| found == ending));
        if is_card && !path.is_dir() {
            cards.push(path);
        }
    }
    if cards.is_empty() {
        let endings = ENDINGS.map(|ending| format!(".{ending}")).join(" or ");
        return Err(Failed::Work(format!(
            "{}: no file there ends in {endings}",
            folder.display()
        )));
    }
    cards.sort();
    Ok(cards)
}

/// Goes through the files, a line each, then prints the table.
pub fn each(
    files: &[PathBuf],
    arguments: &Arguments,
    answer: impl Fn(&Input) -> Outcome<Answer>,
) -> Outcome {
    let progress = Progress::new(files.len());
    let mut rows = Vec::new();
    for (place, file) in files.iter().enumerate() {
        progress.show(place, file);
        let row = row(file, arguments, &answer);
        progress.clear();
        output::to_standard_output(|out| writeln!(out, "{}", row.line))?;
        rows.push(row);
    }
    output::to_standard_output(|out| table(&rows, out))?;
    let worst = rows.iter().map(|row| row.status).max();
    Ok(worst.unwrap_or(Status::Finished))
}

/// A file's line, and its row of the table.
struct Row {
    line: String,
    columns: [String; 6],
    status: Status,
}

const HEAD: [&str; 6] = ["file", "edition", "nodes", "modules", "count", "answer"];

fn row(file: &Path, arguments: &Arguments, answer: impl Fn(&Input) -> Outcome<Answer>) -> Row {
    let name = file.display().to_string();
    let input = match input::card(file, arguments) {
        Ok(input) => input,
        Err(failed) => return failed_row(name, failed),
    };
    match answer(&input) {
        Err(failed) => failed_row(name, failed),
        Ok(Ok(count)) => {
            let line = format!("{name}: {}", sentence([0, 0, count]));
            told(
                &input,
                line,
                count,
                "finished".to_string(),
                Status::Finished,
            )
        }
        Ok(Err(refusal)) => {
            let place = place(&input.card, &name, &refusal);
            let place = place.map_or_else(String::new, |place| format!("; place: {place}"));
            let line = format!("{name}: {refusal}{place}");
            let number = format!("refused {}", refusal.number());
            told(&input, line, refusal.count(), number, Status::Refused)
        }
    }
}

fn told(input: &Input, line: String, count: u32, answer: String, status: Status) -> Row {
    let contents = &input.card.contents;
    Row {
        line,
        columns: [
            input.file.clone(),
            input.card.edition.number().to_string(),
            contents.nodes.len().to_string(),
            contents.modules.len().to_string(),
            count.to_string(),
            answer,
        ],
        status,
    }
}

/// A file that could not be read, or not run to its end.
fn failed_row(name: String, failed: Failed) -> Row {
    let unknown = || "-".to_string();
    Row {
        // The message begins with the file's name.
        line: match failed {
            Failed::Use(message) | Failed::Work(message) => message,
            Failed::Unread => String::new(),
        },
        columns: [
            name,
            unknown(),
            unknown(),
            unknown(),
            unknown(),
            "failed".to_string(),
        ],
        status: Status::Failed,
    }
}

/// The rows under their head, columns of numbers to the right, and how many there are of each answer.
fn table(rows: &[Row], out: &mut dyn Write) -> io::Result<()> {
    let mut widths = HEAD.map(str::len);
    for row in rows {
        for (width, column) in widths.iter_mut().zip(&row.columns) {
            *width = (*width).max(column.chars().count());
        }
    }
    writeln!(out)?;
    line(HEAD, widths, out)?;
    for row in rows {
        line(row.columns.each_ref().map(String::as_str), widths, out)?;
    }
    let count = |status| rows.iter().filter(|row| row.status == status).count();
    let [finished, refused, failed] =
        [Status::Finished, Status::Refused, Status::Failed].map(count);
    writeln!(
        out,
        "{} files: {finished} finished, {refused} refused, {failed} failed",
        rows.len()
    )
}

fn line(columns: [&str; 6], widths: [usize; 6], out: &mut dyn Write) -> io::Result<()> {
    let [file, edition, nodes, modules, count, answer] = columns;
    let [w0, w1, w2, w3, w4, _] = widths;
    writeln!(
        out,
        "{file:w0$}  {edition:>w1$}  {nodes:>w2$}  {modules:>w3$}  {count:>w4$}  {answer}"
    )
}

/// Which file is at work, on a terminal.
struct Progress {
    files: usize,
    shown: bool,
}

impl Progress {
    fn new(files: usize) -> Progress {
        Progress {
            files,
            shown: io::stderr().is_terminal(),
        }
    }

    fn show(&self, place: usize, file: &Path) {
        if self.shown {
            let line = format!(
                "\r{} of {}: {}\x1B[K",
                place + 1,
                self.files,
                file.display()
            );
            // A line that is not seen is no failure.
            let _ = io::stderr().write_all(line.as_bytes());
        }
    }

    fn clear(&self) {
        if self.shown {
            let _ = io::stderr().write_all(b"\r\x1B[K");
        }
    }
}

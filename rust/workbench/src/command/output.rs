//! Writing: to standard output, to standard error, and to files that are whole or not there.

use std::fs::{self, File};
use std::io::{self, BufWriter, ErrorKind, Write};
use std::path::{Path, PathBuf};

use super::{Failed, Outcome, Status};

/// Prints a text and finishes.
pub fn print(text: &str) -> Outcome {
    to_standard_output(|out| out.write_all(text.as_bytes()))?;
    Ok(Status::Finished)
}

/// Writes to standard output, all of it.
pub fn to_standard_output(write: impl FnOnce(&mut dyn Write) -> io::Result<()>) -> Outcome<()> {
    let mut out = BufWriter::new(io::stdout().lock());
    let written = write(&mut out).and_then(|()| out.flush());
    written.map_err(|error| match error.kind() {
        ErrorKind::BrokenPipe => Failed::Unread,
        _ => Failed::Work(format!("standard output: {error}")),
    })
}

/// Says on standard error what could not be done.
pub fn complain(message: &str) {
    // Where standard error is closed nobody is there to be told.
    let _ = writeln!(io::stderr(), "timing: {message}");
}

/// Writes a file whole. What stood there before is replaced once all is written, and a file that could not be
/// written whole is not left behind.
pub fn to_file(path: &Path, write: impl FnOnce(&mut dyn Write) -> io::Result<()>) -> Outcome<()> {
    written(path, write).map_err(|error| Failed::Work(format!("{}: {error}", path.display())))
}

fn written(path: &Path, write: impl FnOnce(&mut dyn Write) -> io::Result<()>) -> io::Result<()> {
    let before = match fs::metadata(path) {
        // A pipe or a device is written to as it is.
        Ok(before) if !before.is_file() => {
            return write_all(File::options().write(true).open(path)?, write)
        }
        before => before.ok(),
    };
    // The file itself, where the path is a link to it.
    let target = fs::canonicalize(path).unwrap_or_else(|_| path.to_path_buf());
    let (part, file) = beside(&target)?;
    let whole = write_all(file, write)
        .and_then(|()| match before {
            Some(before) => fs::set_permissions(&part, before.permissions()),
            None => Ok(()),
        })
        .and_then(|()| fs::rename(&part, &target));
    if whole.is_err() {
        // The first failure is the one to be told.
        let _ = fs::remove_file(&part);
    }
    whole
}

fn write_all(file: File, write: impl FnOnce(&mut dyn Write) -> io::Result<()>) -> io::Result<()> {
    let mut out = BufWriter::new(file);
    write(&mut out)?;
    out.flush()
}

/// A new file in the folder of another, with a name that no file there has.
fn beside(target: &Path) -> io::Result<(PathBuf, File)> {
    let name = target.file_name().ok_or(ErrorKind::InvalidInput)?;
    for attempt in 0_u32.. {
        let mut part = name.to_os_string();
        part.push(format!(".part{attempt}"));
        let part = target.with_file_name(part);
        match File::options().write(true).create_new(true).open(&part) {
            Err(error) if error.kind() == ErrorKind::AlreadyExists => {}
            opened => return opened.map(|file| (part, file)),
        }
    }
    Err(ErrorKind::AlreadyExists.into())
}

//! Starting the command in a folder of its own.

use std::fs;
use std::io::Write;
use std::path::{Path, PathBuf};
use std::process::{Command, Output, Stdio};

/// Document 01's worked run as a text.
pub const WORKED: &str = include_str!("../../../../examples/worked.net");

/// A folder under the tests' own, empty at first.
pub struct Folder {
    path: PathBuf,
}

/// What a command came to.
#[derive(Debug, PartialEq, Eq)]
pub struct Ended {
    pub status: i32,
    pub out: String,
    pub err: String,
}

impl Folder {
    pub fn new(name: &str) -> Folder {
        let path = Path::new(env!("CARGO_TARGET_TMPDIR"))
            .join("command")
            .join(name);
        if path.exists() {
            fs::remove_dir_all(&path).expect("an earlier folder can be removed");
        }
        fs::create_dir_all(&path).expect("a folder can be made");
        Folder { path }
    }

    /// One with the worked run's text and sheet in it.
    pub fn with_worked(name: &str) -> Folder {
        let folder = Folder::new(name);
        folder.write("worked.net", WORKED);
        folder.write("worked.sheet", plain::worked_run::SHEET);
        folder
    }

    pub fn path(&self, name: &str) -> PathBuf {
        self.path.join(name)
    }

    pub fn write(&self, name: &str, bytes: impl AsRef<[u8]>) {
        fs::write(self.path(name), bytes).expect("a file can be written");
    }

    pub fn read(&self, name: &str) -> Vec<u8> {
        fs::read(self.path(name)).unwrap_or_else(|error| panic!("{name}: {error}"))
    }

    /// The names of its files.
    pub fn names(&self) -> Vec<String> {
        let entries = fs::read_dir(&self.path).expect("it can be read");
        let name = |entry: std::io::Result<fs::DirEntry>| {
            entry
                .expect("it is there")
                .file_name()
                .into_string()
                .expect("names are text")
        };
        let mut names: Vec<String> = entries.map(name).collect();
        names.sort();
        names
    }

    /// The command, to be started here.
    pub fn command(&self, arguments: &[&str]) -> Command {
        let mut command = Command::new(env!("CARGO_BIN_EXE_timing"));
        command
            .args(arguments)
            .current_dir(&self.path)
            .stdin(Stdio::null());
        command
    }

    /// A line for the shell, in which $timing is the command.
    pub fn shell(&self, line: &str) -> Ended {
        let mut shell = Command::new("sh");
        shell
            .args(["-c", line])
            .current_dir(&self.path)
            .stdin(Stdio::null());
        shell.env("timing", env!("CARGO_BIN_EXE_timing"));
        ended(shell.output().expect("there is a shell"))
    }

    /// What the command comes to.
    pub fn timing(&self, arguments: &[&str]) -> Ended {
        ended(self.command(arguments).output().expect("it can be started"))
    }

    /// The same, with something to read.
    pub fn timing_reading(&self, arguments: &[&str], input: &[u8]) -> Ended {
        let mut command = self.command(arguments);
        command
            .stdin(Stdio::piped())
            .stdout(Stdio::piped())
            .stderr(Stdio::piped());
        let mut child = command.spawn().expect("it can be started");
        let mut stdin = child.stdin.take().expect("it was piped");
        stdin.write_all(input).expect("it reads its input");
        drop(stdin);
        ended(child.wait_with_output().expect("it ends"))
    }
}

fn ended(output: Output) -> Ended {
    let text = |bytes: Vec<u8>| String::from_utf8(bytes).expect("it prints text");
    Ended {
        status: output.status.code().expect("no signal ended it"),
        out: text(output.stdout),
        err: text(output.stderr),
    }
}

impl Ended {
    /// Asserts that it finished with this on standard output and nothing on standard error.
    pub fn finished(&self, out: &str) {
        assert_eq!(
            (self.status, self.out.as_str(), self.err.as_str()),
            (0, out, "")
        );
    }

    /// Asserts that it was refused with this on standard output and nothing on standard error.
    pub fn refused(&self, out: &str) {
        assert_eq!(
            (self.status, self.out.as_str(), self.err.as_str()),
            (1, out, "")
        );
    }

    /// Asserts that it failed with this on standard error and nothing on standard output.
    pub fn failed(&self, err: &str) {
        assert_eq!(
            (self.status, self.out.as_str(), self.err.as_str()),
            (2, "", err)
        );
    }
}

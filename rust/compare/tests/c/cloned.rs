//! The programs of examples/c, made as in a fresh clone.

use std::env;
use std::ffi::OsString;
use std::fs;
use std::path::{Path, PathBuf};
use std::process::Command;
use std::sync::LazyLock;

use compare::repository;

use crate::compiled::{Program, ARCHIVE, FLAGS};
use crate::ended::Ended;
use crate::header::HEADER;

/// What the examples are made of, beside the library and its header.
pub const SOURCES: [&str; 4] = ["print.c", "print.h", "run_sheet.c", "worked_run.c"];

/// What make takes from outside, which a test does not.
const FROM_OUTSIDE: [&str; 7] = [
    "MAKEFLAGS",
    "MFLAGS",
    "GNUMAKEFLAGS",
    "MAKEFILES",
    "MAKELEVEL",
    "CC",
    "CFLAGS",
];

/// A folder that has what a clone has of the examples and nothing that is built.
pub struct Cloned {
    pub folder: PathBuf,
}

impl Cloned {
    /// Makes the folder anew.
    pub fn new(name: &str) -> Cloned {
        let clones = Path::new(env!("CARGO_TARGET_TMPDIR")).join("c_clones");
        let folder = clones.join(name);
        if folder.exists() {
            fs::remove_dir_all(&folder).expect("it is a test's own");
        }
        let cloned = Cloned { folder };
        cloned.copy(HEADER);
        for name in SOURCES {
            cloned.copy(&format!("examples/c/{name}"));
        }
        cloned.copy("examples/c/Makefile");
        cloned.copy("tools/build");
        cloned.copy("crates/timing_c/src/lib.rt");
        cloned
    }

    /// One in which the library is built already.
    pub fn with_archive(name: &str) -> Cloned {
        let cloned = Cloned::new(name);
        cloned.copy(ARCHIVE);
        cloned
    }

    fn copy(&self, file: &str) {
        let to = self.folder.join(file);
        let folder = to.parent().expect("a file stands in a folder");
        fs::create_dir_all(folder).expect("there is room");
        fs::copy(repository().join(file), to).unwrap_or_else(|error| panic!("{file}: {error}"));
    }

    /// Make in examples/c with these words. It proves nothing: `stand_in/rt` is found first.
    pub fn make(&self, words: &[&str]) -> Ended {
        self.make_in(&[], words)
    }

    /// The same with these variables in the environment.
    pub fn make_in(&self, environment: &[(&str, &str)], words: &[&str]) -> Ended {
        let mut command = Command::new("make");
        for name in FROM_OUTSIDE {
            command.env_remove(name);
        }
        command
            .current_dir(&self.folder)
            .env("PATH", path_with_stand_in())
            .envs(environment.iter().copied())
            .args(["-C", "examples/c"])
            .args(words);
        Ended::of(command.output().expect("make is installed"))
    }

    /// A program that was made.
    pub fn program(&self, name: &str) -> Program {
        let path = self.folder.join("target/c").join(name);
        Program { path }
    }
}

/// Where programs are looked for: first the one that stands in for rt.
fn path_with_stand_in() -> OsString {
    let stand_in = repository().join("rust/compare/tests/c/stand_in");
    let others = env::var_os("PATH").expect("there are programs");
    let folders = [stand_in].into_iter().chain(env::split_paths(&others));
    env::join_paths(folders).expect("they were joined before")
}

/// A program of examples/c, made with every warning an error.
pub fn example(name: &str) -> Program {
    static MADE: LazyLock<Cloned> = LazyLock::new(|| {
        let cloned = Cloned::with_archive("examples");
        let flags = format!("CFLAGS={}", FLAGS.join(" "));
        cloned.make(&[&flags]).printed();
        cloned
    });
    MADE.program(name)
}

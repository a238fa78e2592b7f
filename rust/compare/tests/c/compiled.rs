//! Programs in C over the library, compiled with every warning an error.

use std::io::Write;
use std::path::{Path, PathBuf};
use std::process::{Command, Stdio};

use compare::repository;

use crate::ended::Ended;

/// The proved library, seen from the repository's folder.
pub const ARCHIVE: &str = "target/staticlib/libtiming_c.a";

pub const FLAGS: [&str; 9] = [
    "-std=c99",
    "-Wall",
    "-Wextra",
    "-Wpedantic",
    "-Wconversion",
    "-Wshadow",
    "-Wstrict-prototypes",
    "-Werror",
    "-pthread",
];

/// A program that is compiled.
pub struct Program {
    pub path: PathBuf,
}

impl Program {
    /// Compiles `name`.c of this folder. The header is asked for as a user asks for it.
    pub fn new(name: &str) -> Program {
        let path = Path::new(env!("CARGO_TARGET_TMPDIR")).join(name);
        let output = Command::new("gcc")
            .current_dir(repository())
            .args(FLAGS)
            .args(["-I", "include"])
            .arg(format!("rust/compare/tests/c/{name}.c"))
            .args([ARCHIVE, "-o"])
            .arg(&path)
            .output()
            .expect("gcc is installed");
        let said = String::from_utf8_lossy(&output.stderr);
        assert!(output.status.success() && said.is_empty(), "{said}");
        Program { path }
    }

    /// How it ends for these arguments and this standard input.
    pub fn ended(&self, arguments: &[String], input: &[u8]) -> Ended {
        let mut child = Command::new(&self.path)
            .args(arguments)
            .stdin(Stdio::piped())
            .stdout(Stdio::piped())
            .stderr(Stdio::piped())
            .spawn()
            .expect("it was compiled");
        let mut stdin = child.stdin.take().expect("it was piped");
        stdin.write_all(input).expect("it reads its input");
        drop(stdin);
        Ended::of(child.wait_with_output().expect("it was started"))
    }

    /// What it prints for these arguments and this standard input.
    pub fn printed(&self, arguments: &[String], input: &[u8]) -> String {
        self.ended(arguments, input).printed()
    }
}

//! Where things are built and kept, seen from this crate.

use std::path::{Path, PathBuf};

/// The repository's folder.
pub fn repository() -> PathBuf {
    Path::new(env!("CARGO_MANIFEST_DIR")).join("../..")
}

/// The program, which must have been built.
pub fn program() -> PathBuf {
    built("simulate")
}

/// The program that prints the gates' tables, which must have been built.
pub fn table_generator() -> PathBuf {
    built("gate_tables")
}

fn built(name: &str) -> PathBuf {
    repository().join("target/bin").join(name)
}

//! Links the static library that is built from the proved sources.

use std::env;
use std::path::Path;

fn main() {
    let here = env::var("CARGO_MANIFEST_DIR").expect("cargo names the crate's folder");
    let folder = Path::new(&here).join("../../target/staticlib");
    let archive = folder.join("libtiming_c.a");
    println!("cargo:rustc-link-search=native={}", folder.display());
    println!("cargo:rustc-link-lib=static=timing_c");
    println!("cargo:rerun-if-changed={}", archive.display());
}

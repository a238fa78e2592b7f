//! On a terminal a line says which file is at work, and is gone once it is done.

use std::fs;
use std::path::Path;
use std::process::{Command, Stdio};

/// It runs a command on a terminal of its own and prints what is shown there.
pub const TOOLS: [&str; 1] = ["script"];

pub fn check() {
    let folder = Path::new(env!("CARGO_TARGET_TMPDIR")).join("terminal");
    fs::create_dir_all(&folder).expect("a folder can be made");
    for name in ["a.net", "b.net"] {
        fs::write(folder.join(name), "timing-1\ninput a\n").expect("a file can be written");
    }
    let line = format!("'{}' check a.net b.net", env!("CARGO_BIN_EXE_timing"));
    let output = Command::new("script")
        .args(["-q", "-e", "-c", &line, "/dev/null"])
        .current_dir(&folder)
        .stdin(Stdio::null())
        .output()
        .expect("it is installed");
    let shown = String::from_utf8_lossy(&output.stdout);
    assert!(output.status.success(), "{shown}");
    let clear = "\r\x1B[K";
    for (place, name) in [(1, "a.net"), (2, "b.net")] {
        let line =
            format!("\r{place} of 2: {name}\x1B[K{clear}{name}: finished, with a count of 0");
        assert!(shown.contains(&line), "{shown:?}");
    }
}

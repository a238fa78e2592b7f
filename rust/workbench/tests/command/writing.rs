//! Files are written whole or not at all.

use std::fs;
use std::os::unix::fs::{symlink, FileTypeExt, PermissionsExt};

use plain::worked_run;

use crate::support::Folder;

#[test]
fn a_full_disk() {
    let folder = Folder::with_worked("a_full_disk");
    let full = |name: &str| format!("timing: {name}: No space left on device (os error 28)\n");
    for arguments in [
        &["assemble", "worked.net", "-o", "/dev/full"][..],
        &["show", "worked.sheet", "-o", "/dev/full"],
        &["run", "worked.net", "--horizon", "12", "--vcd", "/dev/full"],
        &["run", "worked.net", "--horizon", "12", "--svg", "/dev/full"],
        &["convert", "worked.net", "--to", "2", "-o", "/dev/full"],
        &[
            "load",
            "worked.net",
            "--seed",
            "1",
            "--count",
            "2",
            "-o",
            "/dev/full",
        ],
    ] {
        folder.timing(arguments).failed(&full("/dev/full"));
    }
    for line in [
        "$timing run worked.net --horizon 12 >/dev/full",
        "$timing check worked.net >/dev/full",
        "$timing check worked.net worked.sheet >/dev/full",
        "$timing check --help >/dev/full",
        "$timing show worked.sheet >/dev/full",
    ] {
        folder.shell(line).failed(&full("standard output"));
    }
    let device = fs::metadata("/dev/full").expect("it is there").file_type();
    assert!(device.is_char_device(), "the device is left alone");
}

/// A file that may not grow cannot be written whole: nothing is left behind, and what stood there stays.
#[test]
fn a_file_that_cannot_be_written_whole() {
    let folder = Folder::with_worked("a_file_that_cannot_be_written_whole");
    folder.write("old.sheet", "old");
    for target in ["new.sheet", "old.sheet"] {
        let line = format!("trap '' XFSZ; ulimit -f 0; $timing assemble worked.net -o {target}");
        folder
            .shell(&line)
            .failed(&format!("timing: {target}: File too large (os error 27)\n"));
    }
    assert_eq!(folder.names(), ["old.sheet", "worked.net", "worked.sheet"]);
    assert_eq!(folder.read("old.sheet"), b"old");
}

#[test]
fn what_stood_there_is_replaced() {
    let folder = Folder::with_worked("what_stood_there_is_replaced");
    folder.write("old.sheet", vec![7; 1_000]);
    fs::set_permissions(folder.path("old.sheet"), fs::Permissions::from_mode(0o640))
        .expect("it is ours");
    symlink("old.sheet", folder.path("link.sheet")).expect("it can be made");
    folder
        .timing(&["assemble", "worked.net", "-o", "link.sheet"])
        .finished("");
    assert_eq!(folder.read("old.sheet"), worked_run::SHEET);
    let mode = fs::metadata(folder.path("old.sheet"))
        .expect("it is there")
        .permissions()
        .mode();
    assert_eq!(mode & 0o777, 0o640);
    assert!(fs::symlink_metadata(folder.path("link.sheet"))
        .expect("it is there")
        .is_symlink());
    assert_eq!(
        folder.names(),
        ["link.sheet", "old.sheet", "worked.net", "worked.sheet"]
    );
}

#[test]
fn no_such_place() {
    let folder = Folder::with_worked("no_such_place");
    let ended = folder.timing(&["assemble", "worked.net", "-o", "none/card.sheet"]);
    ended.failed("timing: none/card.sheet: No such file or directory (os error 2)\n");
    let ended = folder.timing(&["assemble", "none.net", "-o", "card.sheet"]);
    ended.failed("timing: none.net: No such file or directory (os error 2)\n");
    let ended = folder.timing(&["run", ".", "--horizon", "3", "--vcd", "x.vcd"]);
    assert_eq!(ended.status, 2);
    let ended = folder.timing(&["show", "."]);
    ended.failed("timing: .: Is a directory (os error 21)\n");
}

/// A reader that has seen enough ends the command without a word.
#[test]
fn a_closed_pipe() {
    let folder = Folder::new("a_closed_pipe");
    folder.write(
        "ring.net",
        "timing-1\nring = inverter(ring) delay 1 initial 0\nwatch ring\n",
    );
    let ended = folder.shell("$timing run ring.net --horizon 100000 | head -n 1");
    ended.finished("finished, with a count of 100000\n");
}

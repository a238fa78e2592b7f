//! Several files, and folders of them.

use std::fs;

use plain::worked_run;

use crate::support::{Folder, WORKED};

/// A folder with an accepted card, its sheet, one with a loop, and a file that is no card.
fn plant(name: &str) -> Folder {
    let folder = Folder::new(name);
    fs::create_dir(folder.path("plant")).expect("it is a new folder");
    fs::create_dir(folder.path("plant/older.net")).expect("it is a new folder");
    folder.write("plant/b.net", WORKED);
    folder.write("plant/a.sheet", worked_run::SHEET);
    folder.write(
        "plant/loop.net",
        "timing-2\nring = inverter(ring) delay 0 initial 0\n",
    );
    folder.write("plant/notes.txt", "the cards of one plant");
    folder
}

#[test]
fn a_folder() {
    let folder = plant("a_folder");
    folder.timing(&["check", "plant"]).refused(
        "plant/a.sheet: finished, with a count of 0
plant/b.net: finished, with a count of 0
plant/loop.net: refused: one or more modules of delay 0 form a closed chain, at node 0; records written: 0; place: nodes, record 0 (ring), line 2 of plant/loop.net

file            edition  nodes  modules  count  answer
plant/a.sheet         1      2        1      0  finished
plant/b.net           1      2        1      0  finished
plant/loop.net        2      1        1      0  refused 18
3 files: 2 finished, 1 refused, 0 failed
",
    );
}

#[test]
fn several_files() {
    let folder = plant("several_files");
    folder
        .timing(&["run", "plant/b.net", "plant/a.sheet", "--horizon", "12"])
        .finished(
            "plant/b.net: finished, with a count of 6
plant/a.sheet: finished, with a count of 6

file           edition  nodes  modules  count  answer
plant/b.net          1      2        1      6  finished
plant/a.sheet        1      2        1      6  finished
2 files: 2 finished, 0 refused, 0 failed
",
        );
}

/// What cannot be read does not keep the others from being run.
#[test]
fn one_that_fails() {
    let folder = plant("one_that_fails");
    folder.write("wrong.net", "timing-1\ninput\n");
    let ended = folder.timing(&["run", "wrong.net", "none.net", "plant", "--horizon", "12"]);
    assert_eq!(
        (ended.status, ended.err.as_str(), ended.out.as_str()),
        (
            2,
            "",
            "wrong.net:2:6: found the end of the line, expected a name
none.net: No such file or directory (os error 2)
plant/a.sheet: finished, with a count of 6
plant/b.net: finished, with a count of 6
plant/loop.net: refused: one or more modules of delay 0 form a closed chain, at node 0; records written: 0; place: nodes, record 0 (ring), line 2 of plant/loop.net

file            edition  nodes  modules  count  answer
wrong.net             -      -        -      -  failed
none.net              -      -        -      -  failed
plant/a.sheet         1      2        1      6  finished
plant/b.net           1      2        1      6  finished
plant/loop.net        2      1        1      0  refused 18
5 files: 2 finished, 1 refused, 2 failed
"
        )
    );
}

#[test]
fn a_folder_without_cards() {
    let folder = Folder::new("a_folder_without_cards");
    fs::create_dir(folder.path("plant")).expect("it is a new folder");
    let ended = folder.timing(&["check", "plant"]);
    ended.failed("timing: plant: no file there ends in .net or .sheet\n");
}

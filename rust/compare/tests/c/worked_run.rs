//! The example to copy prints what document 01 says.

use plain::worked_run;

use crate::cloned::example;
use crate::compiled::Program;

#[test]
fn the_example_prints_the_worked_run() {
    let printed = Program::new("worked_run").printed(&[], &[]);
    assert_eq!(printed, worked_run::PRINTED);
}

#[test]
fn the_example_that_make_builds_prints_it() {
    let printed = example("worked_run").printed(&[], &[]);
    assert_eq!(printed, worked_run::PRINTED);
}

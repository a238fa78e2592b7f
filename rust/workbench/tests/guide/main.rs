//! docs/GUIDE.md is held against what it speaks of: its cards against the examples, its commands against the
//! command, its tables against the plain simulator, its advice against cards that follow it.

mod advice;
mod cards;
mod changed;
mod commands;
mod examples;
mod page;
mod refusals;
mod tables;

use commands::Runs;
use page::Page;

/// What is wrong on a page, given its examples and what its commands did.
fn faults(text: &str, runs: &Runs) -> Vec<String> {
    let page = Page::of(text);
    let mut faults = cards::faults(&page.cards);
    faults.extend(commands::faults(&page.commands, runs));
    faults.extend(tables::faults(&page.tables));
    faults.extend(refusals::faults(&page.rows));
    faults
}

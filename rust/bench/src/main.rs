//! Prints a table of times, ready for a page. Every listing is compared with the library's before
//! its time is printed, and the command fails if one differs.
//!
//!     cargo run --release -p bench [horizon]

#![forbid(unsafe_code)]

use std::process::ExitCode;

use bench::outside::{self, Simulator};
use bench::table::{self, Row};
use bench::{agree, describe, machine, workload};
use generate::limits::LAST_HORIZON;

fn main() -> ExitCode {
    let horizon = horizon();
    let (installed, absent): (Vec<Simulator>, Vec<Simulator>) =
        outside::ALL.into_iter().partition(Simulator::is_installed);
    agree::ours();
    installed.iter().for_each(agree::translations);
    println!("{}\n", table::caption(horizon, &machine::described()));
    println!("{}", table::head(&installed));
    let mut all_agree = true;
    for workload in workload::all() {
        let row = Row::timed(&workload, horizon, &installed);
        println!("{row}");
        all_agree &= row.all_agree();
    }
    println!("\n{}", describe::timed());
    for simulator in absent {
        println!(
            "\n{} is not installed, so it was not timed.",
            simulator.name
        );
    }
    if all_agree {
        ExitCode::SUCCESS
    } else {
        ExitCode::FAILURE
    }
}

/// The horizon that was asked for, or the last one there is.
fn horizon() -> u32 {
    let asked = std::env::args().nth(1);
    asked.map_or(LAST_HORIZON, |text| {
        text.parse().expect("the horizon is a number")
    })
}

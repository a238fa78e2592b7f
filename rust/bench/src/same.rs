//! The library's algorithm in safe Rust: what the same passes over the same arrays cost when a
//! compiler, and not a proof, sees to it that no index leaves its array.
//!
//! The passes of a tick are those of the library's crate `run`, in its order: the drive's events,
//! the changes due, the modules of delay zero in working order, the delayed modules, whose new
//! results are scheduled, the count of the records, the records, and the values now shown. The
//! arrays are its arrays: 8 bytes a module in working order, one of which says whether its node has other
//! drivers, the delays, the laid-out rules, where that of each module's kind begins, the values, what each
//! module contributes, how many contribute each value to a node of several drivers, what each delayed module
//! came to last, one flat list of pending changes, each in 32 bits, and where each node's last record
//! stands. A record is written with end 0, which the node's next record puts right, and for what still lasts
//! the end of the run. A contribution that changes is taken off its node's counts and added to them again,
//! and the node's value is read from them; with one driver a node there are no counts to look at.
//!
//! Both sides are compiled by LLVM at -O3 for the x86-64 that all machines have, each as one
//! module: the library so by its own tool, this side by the workspace's release profile (fat LTO,
//! one codegen unit). Neither tests for overflow: the library has proved that there is none, and a
//! release build of Rust leaves the test out. Only this side tests indices, where rustc cannot see
//! that they are good.
//!
//! The three passes that loop over modules and changes are not inlined: together in one function, the
//! time of one would hang on how the others are compiled.
//!
//! Reading the sheet is left to the plain simulator: a few milliseconds of a run.

mod changes;
mod nodes;
mod order;
mod tables;
mod tick;

use generate::limits::{LAST_HORIZON, MOST_PENDING, RECORD_BYTES};
use plain::{Edition, Sheet};

use tick::Tick;

/// Runs the sheet as the library does.
pub fn run(edition: Edition, sheet: &[u8], horizon: u32, listing: &mut [u8]) -> [u32; 3] {
    if horizon == 0 || horizon > LAST_HORIZON {
        return [1, 0, 0];
    }
    match plain::read(edition, sheet) {
        Ok(sheet) => ticks(&sheet, horizon, listing),
        Err(refusal) => refusal.triple(),
    }
}

/// The ticks in turn, until one is refused or the horizon is reached.
fn ticks(sheet: &Sheet, horizon: u32, listing: &mut [u8]) -> [u32; 3] {
    let (records, _) = listing.as_chunks_mut::<RECORD_BYTES>();
    let mut written = 0;
    let mut state = Tick::new(sheet, horizon);
    for tick in 0..horizon {
        let pending = state.work(tick);
        let fresh = state.count_fresh();
        if records.len() < written + fresh {
            state.end_all(tick, records);
            return [19, tick, written as u32];
        }
        if fresh > 0 {
            state.write_fresh(tick, written, records);
            state.show_all();
            written += fresh;
        }
        if pending > MOST_PENDING {
            state.end_all(tick + 1, records);
            return [20, tick, written as u32];
        }
    }
    state.end_all(horizon, records);
    [0, 0, written as u32]
}

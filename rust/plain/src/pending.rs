//! Pending changes, counted from differences of contributions.

use crate::cells::Timelines;
use crate::sheet::Sheet;

/// For each tick t, the number of changes pending after it: the pairs of a module and a tick u,
/// with u above t, at most t + d and below H, where its contribution at u differs from the one at
/// u - 1. A node that several modules drive need not change then.
///
/// A change at u is thus pending after the ticks u - d to u - 1: it is counted in at the first of
/// them and out at u.
pub fn pending(sheet: &Sheet, timelines: &Timelines) -> Vec<usize> {
    let horizon = timelines.cells.first().map_or(0, Vec::len);
    let mut counted_in = vec![0; horizon];
    let mut counted_out = vec![0; horizon];
    for (module, given) in sheet.modules.iter().zip(&timelines.contributions) {
        for u in (1..horizon).filter(|&u| given[u] != given[u - 1]) {
            counted_in[u.saturating_sub(usize::from(module.delay))] += 1;
            counted_out[u] += 1;
        }
    }
    let mut pending = 0;
    let at_each_tick = counted_in.iter().zip(&counted_out);
    at_each_tick
        .map(|(now_in, now_out)| {
            pending = pending + now_in - now_out;
            pending
        })
        .collect()
}

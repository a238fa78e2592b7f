//! What simulators that are not ours print gives records with ends, whether or not they are installed.

use bench::outside;
use plain::worked_run;

/// The times of the worked run's changes and the values of nodes 0 and 1 from then on, counted from
/// tick 0. The last line is past the horizon.
const WORKED: [(u32, &str); 6] = [
    (0, "0X"),
    (3, "01"),
    (5, "11"),
    (8, "10"),
    (11, "11"),
    (12, "00"),
];

/// As one of them prints it: its own times, and a line of its own first.
fn printed(tick_0: u32) -> String {
    let line = |(tick, values): (u32, &str)| format!("{} {values}\n", tick + tick_0);
    let lines: String = WORKED.into_iter().map(line).collect();
    format!("sheet.v:1: a note\n{lines}")
}

#[test]
fn the_worked_run() {
    let sheet = worked_run::sheet();
    let [icarus, ghdl] = outside::ALL;
    for (simulator, tick_0) in [(icarus, 1), (ghdl, 0)] {
        let records = simulator.records(&sheet, worked_run::HORIZON, &printed(tick_0));
        assert_eq!(records, worked_run::RECORDS, "{}", simulator.name);
    }
}

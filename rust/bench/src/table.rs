//! The table of times.

use std::fmt;

use crate::outside::Simulator;
use crate::same;
use crate::timed::{self, Run, Timed};
use crate::workload::Workload;

/// How often the library and the same algorithm in safe Rust are run; the least time counts.
const TIMES: u32 = 3;

pub fn caption(horizon: u32, machine: &str) -> String {
    format!(
        "Seconds for {horizon} ticks, and in brackets how many times the library's seconds they \
         are. {machine}."
    )
}

/// The head of the table, with a column for each simulator that is not ours.
pub fn head(simulators: &[Simulator]) -> String {
    let ours = ["Workload", "Records", "Library", "Safe Rust", "Plain"].map(String::from);
    let others = simulators.iter().map(Simulator::title);
    let titles: Vec<String> = ours.into_iter().chain(others).collect();
    let columns = "---|".repeat(titles.len());
    format!("| {} |\n|{columns}", titles.join(" | "))
}

/// The seconds, if the listing is the library's.
pub fn believed(other: &Timed, library: &Timed) -> Option<f64> {
    (other.records == library.records).then_some(other.seconds)
}

/// A workload with everybody's times.
pub struct Row {
    name: &'static str,
    records: usize,
    library: f64,
    /// The seconds of the others, in the order of the columns, unless another listing came out.
    others: Vec<Option<f64>>,
}

impl Row {
    /// Times one workload with everything.
    pub fn timed(workload: &Workload, horizon: u32, simulators: &[Simulator]) -> Row {
        let Workload { edition, sheet, .. } = workload;
        let time = |run: Run, times| timed::run(run, times, *edition, sheet, horizon);
        let library = time(compare::run, TIMES);
        let ours = [time(same::run, TIMES), time(timed::plain, 1)];
        let outside = simulators
            .iter()
            .map(|simulator| simulator.run(sheet, horizon).expect(simulator.name));
        Row {
            name: workload.name,
            records: library.records.len(),
            library: library.seconds,
            others: ours
                .into_iter()
                .chain(outside)
                .map(|other| believed(&other, &library))
                .collect(),
        }
    }

    /// Whether everybody's listing is the library's.
    pub fn all_agree(&self) -> bool {
        self.others.iter().all(Option::is_some)
    }

    fn cell(&self, seconds: Option<f64>) -> String {
        match seconds {
            Some(seconds) => format!("{seconds:.3} ({:.1})", seconds / self.library),
            None => "another listing".to_string(),
        }
    }
}

impl fmt::Display for Row {
    fn fmt(&self, f: &mut fmt::Formatter) -> fmt::Result {
        let Row {
            name,
            records,
            library,
            ..
        } = self;
        write!(f, "| {name} | {records} | {library:.3} |")?;
        let mut cells = self.others.iter().map(|&seconds| self.cell(seconds));
        cells.try_for_each(|cell| write!(f, " {cell} |"))
    }
}

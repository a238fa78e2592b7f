//! Runs with their seconds.

use std::time::Instant;

use generate::limits::RECORD_BYTES;
use generate::sheets::{records, Record};
use plain::{Edition, Sheet};

/// A run in the shape of the library's.
pub type Run = fn(Edition, &[u8], u32, &mut [u8]) -> [u32; 3];

pub fn plain(edition: Edition, sheet: &[u8], horizon: u32, listing: &mut [u8]) -> [u32; 3] {
    plain::run(edition, sheet, horizon, listing).triple()
}

/// A listing's records and the seconds they took.
pub struct Timed {
    pub records: Vec<Record>,
    pub seconds: f64,
}

/// The least time of so many runs, each of which must finish: the buffer has room for a record of
/// each watched node at each tick.
pub fn run(run: Run, times: u32, edition: Edition, sheet: &Sheet, horizon: u32) -> Timed {
    let bytes = sheet.encode(edition);
    let mut listing = vec![0; RECORD_BYTES * sheet.watched.len() * horizon as usize];
    let mut least = f64::INFINITY;
    let mut written = 0;
    for _ in 0..times {
        let start = Instant::now();
        let answer = run(edition, &bytes, horizon, &mut listing);
        least = least.min(start.elapsed().as_secs_f64());
        let [0, 0, count] = answer else {
            panic!("refused: {answer:?}");
        };
        written = RECORD_BYTES * count as usize;
    }
    Timed {
        records: records(&listing[..written]),
        seconds: least,
    }
}

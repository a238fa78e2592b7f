//! A sheet's bytes with their edition, and what can be asked of them.

use crate::calls::{self, Answer};
use crate::edition::Edition;
use crate::failure::Failure;
use crate::listing::{Listing, RECORD_BYTES};
use crate::number;
use crate::pulses::{Pulse, PULSE_BYTES};
use crate::refusal::Refusal;

/// The bytes of the longest sheet of either edition.
const LONGEST_SHEET: usize = 8_712;

/// The records that a whole run is first lent room for.
const FIRST_ROOM: usize = 6_000;

/// Any bytes, taken as a sheet of an edition.
#[derive(Debug, Clone, Copy)]
pub struct Sheet<'a> {
    edition: Edition,
    bytes: &'a [u8],
}

impl<'a> Sheet<'a> {
    /// Takes the bytes as they are: nothing is looked at before a call.
    pub fn new(edition: Edition, bytes: &'a [u8]) -> Sheet<'a> {
        Sheet { edition, bytes }
    }

    /// The edition that they are taken to be of.
    pub fn edition(&self) -> Edition {
        self.edition
    }

    /// The bytes.
    pub fn bytes(&self) -> &'a [u8] {
        self.bytes
    }

    /// Whether the sheet is accepted.
    pub fn check(&self) -> Result<(), Refusal> {
        finished(match self.edition {
            Edition::First => calls::check(self.bytes),
            Edition::Second => calls::check_2(self.bytes),
        })
    }

    /// Whether the sheet is accepted and every input has an event at tick 0.
    pub fn check_strict(&self) -> Result<(), Refusal> {
        finished(match self.edition {
            Edition::First => calls::check_strict(self.bytes),
            Edition::Second => calls::check_strict_2(self.bytes),
        })
    }

    /// Runs the sheet to the horizon, with room for so many records.
    ///
    /// ```
    /// # let bytes = [1, 0, 4, 0, 0, 1, 0, 0, 0, 0, 0, 0, 1, 1, 0, 0];
    /// use timing::{number, Edition, Sheet};
    ///
    /// // `bytes` are a sheet of one watched node.
    /// let sheet = Sheet::new(Edition::First, &bytes);
    /// assert_eq!(sheet.run(9, 1).expect("there is room").len(), 1);
    /// let refusal = sheet.run(9, 0).unwrap_err();
    /// assert_eq!(refusal.number(), number::NO_ROOM);
    /// assert!(refusal.left().is_empty());
    /// ```
    pub fn run(&self, horizon: u32, room: usize) -> Result<Listing, Refusal> {
        self.run_over(horizon, vec![0; room.saturating_mul(RECORD_BYTES)])
    }

    /// Runs the sheet to the horizon. Where there is no room for all records, the run is made again with
    /// twice the room, so this is refused by no [`number::NO_ROOM`].
    ///
    /// ```
    /// # let bytes = [1, 0, 4, 0, 0, 1, 0, 0, 0, 0, 0, 0, 1, 1, 0, 0];
    /// use timing::{Edition, Failure, Sheet};
    ///
    /// // `bytes` are a sheet of one watched node.
    /// let sheet = Sheet::new(Edition::First, &bytes);
    /// match sheet.run_whole(1_000_000) {
    ///     Ok(listing) => assert_eq!(listing.iter().next().map(|record| record.end), Some(1_000_000)),
    ///     Err(Failure::Refused(refusal)) => panic!("{refusal}"),
    ///     Err(Failure::NoMemory { bytes }) => panic!("no memory for {bytes} bytes"),
    /// }
    /// ```
    pub fn run_whole(&self, horizon: u32) -> Result<Listing, Failure> {
        self.with_room(horizon, |room| {
            let buffer = zeros(room, RECORD_BYTES)?;
            Ok(self.run_over(horizon, buffer)?)
        })
    }

    fn run_over(&self, horizon: u32, mut buffer: Vec<u8>) -> Result<Listing, Refusal> {
        let call = match self.edition {
            Edition::First => calls::run,
            Edition::Second => calls::run_2,
        };
        match call(self.bytes, horizon, &mut buffer) {
            [0, _, count] => Ok(Listing::of(buffer, count)),
            answer => Err(Refusal::of(answer, buffer)),
        }
    }

    /// The pulses of the watched nodes that are shorter than the width, rising by start and then by node,
    /// in a run to the horizon with room for so many records. Each pulse is a record, so the report has room
    /// for as many.
    ///
    /// ```
    /// # let bytes = [2, 0, 4, 2, 1, 0, 6, 0, 1, 0, 1, 3, 0, 2, 0, 0, 0, 0, 0, 0, 0, 5, 0, 0, 0, 0, 1, 2, 0, 0, 1];
    /// use timing::{Edition, Sheet};
    ///
    /// // `bytes` are document 01's worked run. Node 1 is 1 from tick 3 to 8 and 0 from 8 to 11.
    /// let pulses = Sheet::new(Edition::First, &bytes).pulses(12, 5, 100).expect("it finishes");
    /// assert_eq!(pulses.len(), 1);
    /// assert_eq!((pulses[0].start, pulses[0].node, pulses[0].length), (8, 1, 3));
    /// ```
    pub fn pulses(&self, horizon: u32, width: u32, room: usize) -> Result<Vec<Pulse>, Refusal> {
        let listing = vec![0; room.saturating_mul(RECORD_BYTES)];
        let report = vec![0; room.saturating_mul(PULSE_BYTES)];
        self.pulses_over(horizon, width, listing, report)
    }

    /// [`Sheet::pulses`] with as much room as [`Sheet::run_whole`] takes.
    pub fn pulses_whole(&self, horizon: u32, width: u32) -> Result<Vec<Pulse>, Failure> {
        self.with_room(horizon, |room| {
            let listing = zeros(room, RECORD_BYTES)?;
            let report = zeros(room, PULSE_BYTES)?;
            Ok(self.pulses_over(horizon, width, listing, report)?)
        })
    }

    fn pulses_over(
        &self,
        horizon: u32,
        width: u32,
        mut listing: Vec<u8>,
        mut report: Vec<u8>,
    ) -> Result<Vec<Pulse>, Refusal> {
        let call = match self.edition {
            Edition::First => calls::pulses,
            Edition::Second => calls::pulses_2,
        };
        match call(self.bytes, horizon, width, &mut listing, &mut report) {
            [0, _, count] => {
                let pulses = report.chunks_exact(PULSE_BYTES).take(count as usize);
                Ok(pulses.map(Pulse::from_bytes).collect())
            }
            answer => Err(Refusal::of(answer, listing)),
        }
    }

    /// The same sheet in the other edition.
    ///
    /// ```
    /// # let bytes = [1, 0, 4, 0, 0, 1, 0, 0, 0, 0, 0, 0, 1, 1, 0, 0];
    /// use timing::{Edition, Sheet};
    ///
    /// // `bytes` are an accepted sheet of the first edition.
    /// let second = Sheet::new(Edition::First, &bytes).convert().expect("it is accepted");
    /// let back = Sheet::new(Edition::Second, &second).convert().expect("it has no new kind");
    /// assert_eq!(back, bytes);
    /// ```
    pub fn convert(&self) -> Result<Vec<u8>, Refusal> {
        written(|output| match self.edition {
            Edition::First => calls::convert_1_to_2(self.bytes, output),
            Edition::Second => calls::convert_2_to_1(self.bytes, output),
        })
    }

    /// The sheet with a drive that a seed gives in place of its own: an event for each input, and `n` more.
    ///
    /// ```
    /// # let bytes = [1, 0, 4, 0, 0, 1, 0, 0, 0, 0, 0, 0, 1, 1, 0, 0];
    /// use timing::{Edition, Sheet};
    ///
    /// // `bytes` are an accepted sheet of one input and one event.
    /// let loaded = Sheet::new(Edition::First, &bytes).load(7, 10).expect("there is an input");
    /// assert_eq!(loaded.len(), bytes.len() + 10 * 6);
    /// assert_eq!(Sheet::new(Edition::First, &loaded).check_strict(), Ok(()));
    /// ```
    pub fn load(&self, seed: u32, n: u32) -> Result<Vec<u8>, Refusal> {
        written(|output| match self.edition {
            Edition::First => calls::load(self.bytes, seed, n, output),
            Edition::Second => calls::load_2(self.bytes, seed, n, output),
        })
    }

    /// Takes a run with more and more room while that is what it lacks.
    fn with_room<T>(
        &self,
        horizon: u32,
        run: impl Fn(usize) -> Result<T, Failure>,
    ) -> Result<T, Failure> {
        let longest = self.longest_listing(horizon);
        let mut room = FIRST_ROOM.min(longest);
        loop {
            match run(room) {
                Err(Failure::Refused(refusal))
                    if refusal.number() == number::NO_ROOM && room < longest =>
                {
                    room = (2 * room).min(longest);
                }
                outcome => return outcome,
            }
        }
    }

    /// No listing has more records: one for each node and tick. The count of nodes comes first in a sheet.
    fn longest_listing(&self, horizon: u32) -> usize {
        let nodes = match *self.bytes {
            [low, high, ..] => usize::from(u16::from_le_bytes([low, high])),
            _ => 0,
        };
        nodes.saturating_mul(horizon as usize)
    }
}

/// The answer of a call that writes nothing.
fn finished(answer: Answer) -> Result<(), Refusal> {
    match answer {
        [0, ..] => Ok(()),
        answer => Err(Refusal::of(answer, Vec::new())),
    }
}

/// What a call that makes a sheet writes.
fn written(call: impl FnOnce(&mut [u8]) -> Answer) -> Result<Vec<u8>, Refusal> {
    let mut output = vec![0; LONGEST_SHEET];
    match call(&mut output) {
        [0, _, count] => {
            output.truncate(count as usize);
            Ok(output)
        }
        answer => Err(Refusal::of(answer, Vec::new())),
    }
}

/// A buffer of so many records, if there is memory for it.
fn zeros(records: usize, size: usize) -> Result<Vec<u8>, Failure> {
    let bytes = records.saturating_mul(size);
    let mut buffer = Vec::new();
    match buffer.try_reserve_exact(bytes) {
        Ok(()) => {
            buffer.extend(std::iter::repeat_n(0, bytes));
            Ok(buffer)
        }
        Err(_) => Err(Failure::NoMemory { bytes }),
    }
}

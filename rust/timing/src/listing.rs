//! A run's listing, and its records.

use std::slice::ChunksExact;

use crate::level::Level;
use crate::number_at;

/// The bytes of a record.
pub const RECORD_BYTES: usize = 10;

/// The records of a run, rising by tick and then by node, in the bytes that the run wrote.
///
/// ```
/// # let bytes = [2, 0, 4, 2, 1, 0, 6, 0, 1, 0, 1, 3, 0, 2, 0, 0, 0, 0, 0, 0, 0, 5, 0, 0, 0, 0, 1, 2, 0, 0, 1];
/// use timing::{Edition, Level, Sheet};
///
/// // `bytes` are document 01's worked run: the inverse of both nodes' AND onto node 1, with delay 3.
/// let listing = Sheet::new(Edition::First, &bytes).run(12, 100).expect("it finishes");
/// assert_eq!(listing.len(), 6);
/// let high: Vec<u32> = listing
///     .iter()
///     .filter(|record| record.node == 1 && record.value == Level::High)
///     .map(|record| record.end - record.tick)
///     .collect();
/// assert_eq!(high, [5, 1]);
/// ```
#[derive(Debug, Clone, Default, PartialEq, Eq)]
pub struct Listing {
    bytes: Vec<u8>,
}

/// A value of a watched node.
#[derive(Debug, Clone, Copy, PartialEq, Eq)]
pub struct Record {
    /// The tick that the value begins with.
    pub tick: u32,
    /// The node's number.
    pub node: u8,
    /// What the node has from just after the tick on.
    pub value: Level,
    /// The tick of the node's next record, or where it has none the horizon; of a refused run the tick up to which
    /// the value is known.
    pub end: u32,
}

impl Listing {
    /// The first so many records of a lent buffer.
    pub(crate) fn of(mut buffer: Vec<u8>, count: u32) -> Listing {
        buffer.truncate(count as usize * RECORD_BYTES);
        Listing { bytes: buffer }
    }

    /// The records in order.
    pub fn iter(&self) -> Records<'_> {
        Records {
            rest: self.bytes.chunks_exact(RECORD_BYTES),
        }
    }

    /// How many records there are.
    pub fn len(&self) -> usize {
        self.bytes.len() / RECORD_BYTES
    }

    /// Whether there is none.
    pub fn is_empty(&self) -> bool {
        self.bytes.is_empty()
    }

    /// The bytes as the library wrote them.
    pub fn bytes(&self) -> &[u8] {
        &self.bytes
    }
}

impl<'a> IntoIterator for &'a Listing {
    type Item = Record;
    type IntoIter = Records<'a>;

    fn into_iter(self) -> Records<'a> {
        self.iter()
    }
}

/// An iterator over the records of a listing.
#[derive(Debug, Clone)]
pub struct Records<'a> {
    rest: ChunksExact<'a, u8>,
}

impl Iterator for Records<'_> {
    type Item = Record;

    fn next(&mut self) -> Option<Record> {
        let bytes = self.rest.next()?;
        Some(Record {
            tick: number_at(bytes, 0),
            node: bytes[4],
            value: Level::from_byte(bytes[5]).expect("a run writes values alone"),
            end: number_at(bytes, 6),
        })
    }

    fn size_hint(&self) -> (usize, Option<usize>) {
        self.rest.size_hint()
    }
}

impl ExactSizeIterator for Records<'_> {}

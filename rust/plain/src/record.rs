//! A record of a listing: document 01's, with the end that document 02's W-204 gives it.

/// The node has the value from `tick` on, up to `end`.
#[derive(Debug, Clone, Copy, PartialEq, Eq)]
pub(crate) struct Record {
    pub(crate) tick: u32,
    pub(crate) node: u8,
    pub(crate) value: u8,
    pub(crate) end: u32,
}

impl Record {
    /// The bytes of one record.
    pub(crate) const BYTES: usize = 10;

    pub(crate) fn from_bytes(bytes: [u8; Record::BYTES]) -> Record {
        let [t0, t1, t2, t3, node, value, e0, e1, e2, e3] = bytes;
        Record {
            tick: u32::from_le_bytes([t0, t1, t2, t3]),
            node,
            value,
            end: u32::from_le_bytes([e0, e1, e2, e3]),
        }
    }

    pub(crate) fn to_bytes(self) -> [u8; Record::BYTES] {
        let [t0, t1, t2, t3] = self.tick.to_le_bytes();
        let [e0, e1, e2, e3] = self.end.to_le_bytes();
        [t0, t1, t2, t3, self.node, self.value, e0, e1, e2, e3]
    }

    /// Records stand in order by tick, then by node.
    pub(crate) fn key(&self) -> (u32, u8) {
        (self.tick, self.node)
    }
}

//! Buffers that are lent to a call, guarded on both sides.

/// Bytes before and after the lent ones, to be left alone as well.
const GUARD: usize = 64;

/// A lent buffer. No byte of it is like its neighbours, so that one written anywhere shows.
pub struct Lent {
    bytes: Vec<u8>,
    length: usize,
}

impl Lent {
    pub fn new(length: usize) -> Lent {
        let pattern = (0..).map(|place: u32| (place.wrapping_mul(167) >> 3) as u8 ^ 0xA5);
        Lent {
            bytes: pattern.take(length + 2 * GUARD).collect(),
            length,
        }
    }

    pub fn lent(&mut self) -> &mut [u8] {
        &mut self.bytes[GUARD..GUARD + self.length]
    }

    /// The first bytes, which were written, if so many were lent and everything else is as it was.
    pub fn written(&self, bytes: usize) -> Option<&[u8]> {
        let end = GUARD + bytes;
        let untouched = Lent::new(self.length);
        let within = bytes <= self.length;
        let before = self.bytes[..GUARD] == untouched.bytes[..GUARD];
        let after = self.bytes.get(end..) == untouched.bytes.get(end..);
        (within && before && after).then(|| &self.bytes[GUARD..end])
    }
}

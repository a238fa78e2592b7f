//! The sheet's bytes, taken front to back.

use crate::answer::Answer;

pub(crate) struct Reader<'a> {
    bytes: &'a [u8],
    at: usize,
}

impl<'a> Reader<'a> {
    pub(crate) fn new(bytes: &'a [u8]) -> Reader<'a> {
        Reader { bytes, at: 0 }
    }

    /// The place of the next byte.
    pub(crate) fn place(&self) -> usize {
        self.at
    }

    /// Whether bytes are left.
    pub(crate) fn has_more(&self) -> bool {
        self.at < self.bytes.len()
    }

    /// The next N bytes, or refusal 2 at their first byte. This is also the answer where the
    /// bytes end exactly before it.
    pub(crate) fn take<const N: usize>(&mut self) -> Result<[u8; N], Answer> {
        let taken = self.take_bytes(N)?;
        Ok(taken.try_into().expect("so many were taken"))
    }

    /// The same for a number of bytes that an edition gives.
    pub(crate) fn take_bytes(&mut self, count: usize) -> Result<&'a [u8], Answer> {
        let Some(taken) = self.bytes[self.at..].get(..count) else {
            return Err(Answer::unread(2, self.at));
        };
        self.at += count;
        Ok(taken)
    }

    /// The next count, which must lie in the range from `least` to `most`, or refusal 2 or 3.
    pub(crate) fn count(&mut self, least: u16, most: u16) -> Result<u16, Answer> {
        let place = self.at;
        let count = u16::from_le_bytes(self.take()?);
        if count < least || count > most {
            return Err(Answer::unread(3, place));
        }
        Ok(count)
    }
}

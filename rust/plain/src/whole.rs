//! Bytes that a buffer takes whole or not at all.

use crate::answer::Answer;

/// Writes the bytes to the front of the buffer and says whether it took them: one that is too short for all
/// of them is left alone.
pub(crate) fn put_if_it_fits(bytes: &[u8], buffer: &mut [u8]) -> bool {
    match buffer.get_mut(..bytes.len()) {
        Some(front) => {
            front.copy_from_slice(bytes);
            true
        }
        None => false,
    }
}

/// The same, answering the count of bytes. A buffer that is too short is refused by this number, the place
/// being the length needed.
pub(crate) fn put_whole(bytes: &[u8], buffer: &mut [u8], too_short: u32) -> Answer {
    let length = u32::try_from(bytes.len()).expect("a sentence or a sheet is short");
    if put_if_it_fits(bytes, buffer) {
        Answer::Ran { count: length }
    } else {
        Answer::Refused {
            number: too_short,
            place: length,
            count: 0,
        }
    }
}

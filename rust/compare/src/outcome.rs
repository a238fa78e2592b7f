//! What a call that writes a sheet comes to.

use crate::Lent;

/// The answer and the bytes that were written.
#[derive(Debug, PartialEq, Eq)]
pub struct Outcome {
    pub answer: [u32; 3],
    pub written: Vec<u8>,
}

impl Outcome {
    /// What comes of a call that is lent so many bytes. It must leave every byte past its count alone, also
    /// those around the lent ones; a refusal's count is 0.
    pub fn of(length: usize, whence: &str, call: impl FnOnce(&mut [u8]) -> [u32; 3]) -> Outcome {
        let mut output = Lent::new(length);
        let answer = call(output.lent());
        let [.., count] = answer;
        let written = output.written(count as usize);
        let written = written.unwrap_or_else(|| panic!("{whence}: {answer:?} and a stray byte"));
        Outcome {
            answer,
            written: written.to_vec(),
        }
    }
}

//! Lengths of the outputs that sheets are written to.

use crate::Generator;

/// The length of an output, seen from the length that is needed.
#[derive(Debug, Clone, Copy, PartialEq, Eq)]
pub enum Output {
    /// No byte at all.
    Empty,
    ByteShort,
    Exact,
    ByteLong,
    /// Anything up to twice the length that is needed.
    Any,
}

impl Output {
    pub const ALL: [Output; 5] = [
        Output::Empty,
        Output::ByteShort,
        Output::Exact,
        Output::ByteLong,
        Output::Any,
    ];
}

impl Generator {
    /// The bytes of such an output where so many are needed.
    pub fn output_bytes(&mut self, output: Output, needed: usize) -> usize {
        match output {
            Output::Empty => 0,
            Output::ByteShort => needed.saturating_sub(1),
            Output::Exact => needed,
            Output::ByteLong => needed + 1,
            Output::Any => self.random.between(0, 2 * needed),
        }
    }
}

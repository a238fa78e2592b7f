//! The answer of a call.

/// Either a finished call with its count of records, bytes or pulses, or a refusal with its number, its
/// place and the count of records written before it.
#[derive(Debug, Clone, Copy, PartialEq, Eq)]
pub enum Answer {
    Ran { count: u32 },
    Refused { number: u32, place: u32, count: u32 },
}

impl Answer {
    /// A refusal met while reading: nothing has been written.
    pub(crate) fn unread(number: u32, place: usize) -> Answer {
        let place = u32::try_from(place).expect("a place lies within the longest sheet");
        Answer::Refused {
            number,
            place,
            count: 0,
        }
    }

    /// The answer that three words stand for: number 0 is a finished call, and its place is not
    /// looked at.
    pub fn of_triple([number, place, count]: [u32; 3]) -> Answer {
        match number {
            0 => Answer::Ran { count },
            _ => Answer::Refused {
                number,
                place,
                count,
            },
        }
    }

    /// Number, place and count as three words; a finished call has number 0 and place 0.
    pub fn triple(self) -> [u32; 3] {
        match self {
            Answer::Ran { count } => [0, 0, count],
            Answer::Refused {
                number,
                place,
                count,
            } => [number, place, count],
        }
    }
}

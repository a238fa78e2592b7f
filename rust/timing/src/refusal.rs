//! A refusal: which, where, and what had been written.

use std::error::Error;
use std::fmt;

use crate::calls::{self, Answer};
use crate::listing::Listing;
use crate::number;

/// The bytes that no sentence passes.
const LONGEST_SENTENCE: usize = 200;

/// Why a call did not finish. It is displayed as the library's sentence.
///
/// ```
/// use timing::{number, Edition, Place, Sheet};
///
/// let refusal = Sheet::new(Edition::First, &[1, 0, 9]).check().unwrap_err();
/// assert_eq!(refusal.number(), number::BYTE_ABOVE);
/// assert_eq!(refusal.place(), 2);
/// assert_eq!(refusal.sort(), Place::Byte(2));
/// assert_eq!(
///     refusal.to_string(),
///     "refused: a node's byte is neither an initial value, 0 to 3, nor 4 for an input, \
///      at the sheet's byte 2; records written: 0"
/// );
/// ```
#[derive(Debug, Clone, PartialEq, Eq)]
pub struct Refusal {
    number: u32,
    place: u32,
    count: u32,
    left: Listing,
}

/// What a refusal's place counts.
#[derive(Debug, Clone, Copy, PartialEq, Eq)]
pub enum Place {
    /// A byte of the sheet, from 0.
    Byte(u32),
    /// A node's number.
    Node(u32),
    /// A tick of the run.
    Tick(u32),
    /// The bytes that a buffer would need.
    Length(u32),
    /// The pulses that a report would have.
    Pulses(u32),
    /// The number says it all.
    Nowhere,
}

impl Place {
    /// What the place of a refusal counts, by the refusal's number.
    pub fn of(number: u32, place: u32) -> Place {
        match number {
            number::HORIZON_OUTSIDE | number::WIDTH_OUTSIDE | number::DRAWN_TOO_MANY => {
                Place::Nowhere
            }
            number::DRIVEN_OR_NOT | number::NO_FIRST_EVENT | number::ON_LOOP => Place::Node(place),
            number::NO_ROOM | number::CROWDED => Place::Tick(place),
            number::TEXT_SHORT | number::OUTPUT_SHORT => Place::Length(place),
            number::REPORT_SHORT => Place::Pulses(place),
            _ => Place::Byte(place),
        }
    }
}

impl Refusal {
    /// The refusal of an answer whose number is not 0, with the listing's buffer that the call was lent.
    pub(crate) fn of([number, place, count]: Answer, buffer: Vec<u8>) -> Refusal {
        Refusal {
            number,
            place,
            count,
            left: Listing::of(buffer, count),
        }
    }

    /// Which refusal it is: [`number`] names them.
    pub fn number(&self) -> u32 {
        self.number
    }

    /// Where it was met: [`Refusal::sort`] says what this counts.
    pub fn place(&self) -> u32 {
        self.place
    }

    /// How many records had been written.
    pub fn count(&self) -> u32 {
        self.count
    }

    /// The records that had been written: of a run without room (19) those of all earlier ticks, of a
    /// crowded one (20) its own tick's as well, of a report without room (25) all. Otherwise there are none.
    pub fn left(&self) -> &Listing {
        &self.left
    }

    /// The place and what it counts.
    pub fn sort(&self) -> Place {
        Place::of(self.number, self.place)
    }

    /// The library's sentence: what is wrong, the place with what it counts, the count of records.
    pub fn words(&self) -> String {
        sentence([self.number, self.place, self.count])
    }
}

/// The library's sentence for an answer.
pub fn sentence(answer: Answer) -> String {
    let mut text = [0; LONGEST_SENTENCE];
    let [.., length] = calls::describe(answer, &mut text);
    String::from_utf8_lossy(&text[..length as usize]).into_owned()
}

impl fmt::Display for Refusal {
    fn fmt(&self, f: &mut fmt::Formatter<'_>) -> fmt::Result {
        f.write_str(&self.words())
    }
}

impl Error for Refusal {}

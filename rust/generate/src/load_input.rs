//! Sheets, seeds and counts of events for loads.

use plain::Sheet;

use crate::limits::{MOST_EVENTS, MOST_NODES};
use crate::Generator;

/// What a load is given but for its output.
#[derive(Debug, Clone, PartialEq, Eq)]
pub struct LoadInput {
    pub sheet: Vec<u8>,
    pub seed: u32,
    pub n: u32,
}

/// The first draw of this seed makes the state 0; that of the seed before makes it the last one there is.
const TO_STATE_0: u32 = 2_654_435_769_u32.wrapping_neg();

impl Generator {
    /// A sheet, good or bad, a seed, and a count of events, good or bad.
    pub fn load_input(&mut self) -> LoadInput {
        let sheet = match self.random.chance(35) {
            true => self.any(),
            false => self.of_some_inputs().encode(self.edition),
        };
        let read = plain::read(self.edition, &sheet);
        let inputs = read.map_or(0, |sheet| sheet.inputs().count());
        LoadInput {
            sheet,
            seed: self.seed(),
            n: self.events_to_draw(inputs),
        }
    }

    /// A sheet that is accepted, with no input, one, a few, many, or nothing else. Now and then a driven
    /// node has several drivers.
    fn of_some_inputs(&mut self) -> Sheet {
        let inputs = match self.random.between(0, 99) {
            0..=14 => 0,
            15..=34 => 1,
            35..=93 => self.random.between(2, 9),
            94..=97 => self.random.between(10, MOST_NODES),
            _ => MOST_NODES,
        };
        let least = usize::from(inputs == 0);
        let most = (MOST_NODES - inputs).min(9);
        let driven = self.random.between(least, most);
        let sheet = self.valid_with_inputs(inputs, driven);
        match self.random.chance(30) {
            true => self.with_more_drivers(sheet),
            false => sheet,
        }
    }

    /// Any seed, the first and the last ones more often.
    fn seed(&mut self) -> u32 {
        let any = self.random.between(0, u32::MAX as usize) as u32;
        let often = [0, 1, u32::MAX, TO_STATE_0 - 1, TO_STATE_0];
        match self.random.chance(25) {
            true => self.random.pick(&often),
            false => any,
        }
    }

    /// How many events are to be drawn for so many inputs: few or many, as many as there may be, one more or
    /// less, or so many that the sum with the inputs' has more than 32 bits.
    fn events_to_draw(&mut self, inputs: usize) -> u32 {
        if inputs == 0 && self.random.chance(50) {
            return 0;
        }
        let most = MOST_EVENTS - inputs;
        let any = self.random.between(0, most);
        let past = self.random.between(most + 1, 3 * MOST_EVENTS);
        let last = u32::MAX as usize;
        let n = match self.random.between(0, 19) {
            0..=1 => 0,
            2..=3 => 1,
            4..=9 => self.random.between(2, 12),
            10..=12 => any,
            13..=14 => self.random.pick(&[most - 1, most]),
            15..=16 => self.random.pick(&[most + 1, past]),
            17..=18 => last - self.random.place(inputs.max(1)),
            _ => self.random.between(past, last),
        };
        n as u32
    }
}

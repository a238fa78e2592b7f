//! Answers of calls, as three words, to be described.

use crate::Generator;

impl Generator {
    /// A number, a place and a count: the numbers that are listed and those around them, any place
    /// and any count of 32 bits. Few digits are as likely as many.
    pub fn answer(&mut self) -> [u32; 3] {
        let number = match self.random.between(0, 9) {
            0 => self.word(),
            _ => self.random.between(0, 40) as u32,
        };
        [number, self.word(), self.word()]
    }

    /// Two answers that differ, half of them in one word alone.
    pub fn two_answers(&mut self) -> [[u32; 3]; 2] {
        loop {
            let one = self.answer();
            let mut other = self.answer();
            if self.random.chance(50) {
                let place = self.random.place(3);
                let word = other[place];
                other = one;
                other[place] = word;
            }
            // A finished call's place is not looked at.
            let same_call = one[0] == 0 && other[0] == 0 && one[2] == other[2];
            if one != other && !same_call {
                return [one, other];
            }
        }
    }

    /// A number of 32 bits, with one to ten digits.
    fn word(&mut self) -> u32 {
        let most = match self.random.between(1, 10) {
            10 => u32::MAX as usize,
            digits => 10usize.pow(digits as u32) - 1,
        };
        self.random.between(0, most) as u32
    }
}

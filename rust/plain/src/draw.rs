//! Document 02, W-210: numbers drawn from a seed.

/// What is added for each draw.
const STEP: u64 = 2_654_435_769;

/// The draws of a seed, one after the other.
pub struct Draws {
    /// A number of 32 bits, with room for the sum before its remainder is taken.
    state: u64,
}

impl Draws {
    pub fn new(seed: u32) -> Draws {
        Draws { state: seed.into() }
    }

    /// The state grows first; then its upper 16 bits are taken exclusive-or the lower 16.
    pub fn draw(&mut self) -> u16 {
        self.state = (self.state + STEP) % (1 << 32);
        let [upper, lower] = [self.state >> 16, self.state % (1 << 16)];
        u16::try_from(upper ^ lower).expect("both have 16 bits")
    }
}

//! Where ticks stand across the picture.

use std::fmt;

/// The ticks that the picture shows, from the first up to the last.
#[derive(Debug, Clone, Copy)]
pub struct Cut {
    pub from: u32,
    pub to: u32,
}

impl Cut {
    /// How many ticks it has, at least one.
    pub fn ticks(self) -> u32 {
        self.to.saturating_sub(self.from).max(1)
    }

    /// Whether a change at this tick is seen: at the cut's own limits there is none.
    pub fn has_inside(self, tick: u32) -> bool {
        self.from < tick && tick < self.to
    }
}

/// A place across the picture, in hundredths of a pixel.
#[derive(Debug, Clone, Copy, PartialEq, Eq, PartialOrd, Ord)]
pub struct Across(u64);

const HUNDREDTHS: u64 = 100;

impl Across {
    pub fn pixels(pixels: u32) -> Across {
        Across(HUNDREDTHS * u64::from(pixels))
    }

    /// How far another place is, to the left or to the right.
    pub fn distance(self, other: Across) -> Across {
        Across(self.0.abs_diff(other.0))
    }
}

/// In pixels, without zeros at the end.
impl fmt::Display for Across {
    fn fmt(&self, f: &mut fmt::Formatter<'_>) -> fmt::Result {
        let [whole, rest] = [self.0 / HUNDREDTHS, self.0 % HUNDREDTHS];
        match rest {
            0 => write!(f, "{whole}"),
            _ if rest % 10 == 0 => write!(f, "{whole}.{}", rest / 10),
            _ => write!(f, "{whole}.{rest:02}"),
        }
    }
}

/// The cut between two places of the picture, in pixels.
#[derive(Debug, Clone, Copy)]
pub struct Scale {
    pub cut: Cut,
    left: u32,
    right: u32,
}

impl Scale {
    pub fn of(cut: Cut, left: u32, right: u32) -> Scale {
        Scale { cut, left, right }
    }

    /// The place of a tick of the cut.
    pub fn across(&self, tick: u32) -> Across {
        let ticks = u64::from(tick.saturating_sub(self.cut.from));
        let Across(left) = Across::pixels(self.left);
        Across(left + self.length(ticks))
    }

    /// Whether so many ticks take at least so many pixels.
    pub fn takes(&self, ticks: u32, pixels: u32) -> bool {
        Across(self.length(u64::from(ticks))) >= Across::pixels(pixels)
    }

    fn length(&self, ticks: u64) -> u64 {
        let Across(whole) = Across::pixels(self.right.saturating_sub(self.left));
        ticks * whole / u64::from(self.cut.ticks())
    }
}

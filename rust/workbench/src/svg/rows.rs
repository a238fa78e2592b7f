//! Where lanes stand, from the top down.

use super::head;

/// The height that all lanes share, and what a lane takes of it at the least and at the most.
const SHARED: u32 = 520;
const LEAST_PITCH: u32 = 18;
const MOST_PITCH: u32 = 52;

/// Lanes that are so high have room for a name on two lines.
const ROOMY: u32 = 28;

/// Above each block of lanes, for the ticks.
const AXIS: u32 = 48;

/// The ticks stand above every so many lanes at the most.
const BLOCK: usize = 30;

pub struct Rows {
    lanes: usize,
    /// From one lane to the next.
    pitch: u32,
    /// The lanes of a block.
    block: usize,
}

/// Lanes with one row of ticks above them.
pub struct Block {
    pub top: u32,
    pub bottom: u32,
}

impl Rows {
    pub fn of(lanes: usize) -> Rows {
        let share = SHARED / lanes.max(1) as u32;
        let blocks = lanes.div_ceil(BLOCK).max(1);
        Rows {
            lanes,
            pitch: share.clamp(LEAST_PITCH, MOST_PITCH),
            block: lanes.div_ceil(blocks).max(1),
        }
    }

    pub fn are_roomy(&self) -> bool {
        self.pitch >= ROOMY
    }

    /// The height from the line of 0 to that of 1: about three fifths of a lane, and even.
    pub fn wave(&self) -> u32 {
        self.pitch * 3 / 10 * 2
    }

    /// Where a lane has the line of 1.
    pub fn wave_top(&self, place: usize) -> u32 {
        self.top(place) + (self.pitch - self.wave()) / 2
    }

    pub fn blocks(&self) -> impl Iterator<Item = Block> + '_ {
        let firsts = (0..self.lanes).step_by(self.block);
        firsts.map(|first| Block {
            top: self.top(first),
            bottom: self.end((first + self.block).min(self.lanes)),
        })
    }

    /// The end of the last lane.
    pub fn bottom(&self) -> u32 {
        self.end(self.lanes)
    }

    fn top(&self, place: usize) -> u32 {
        let axes = place / self.block + 1;
        head::HEIGHT + axes as u32 * AXIS + place as u32 * self.pitch
    }

    /// The end of so many lanes.
    fn end(&self, lanes: usize) -> u32 {
        match lanes.checked_sub(1) {
            Some(last) => self.top(last) + self.pitch,
            None => head::HEIGHT,
        }
    }
}

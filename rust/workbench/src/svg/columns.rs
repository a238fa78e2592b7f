//! Where names and lanes stand from left to right, and how wide the picture is.

use super::lane::CLOSE;
use super::name::Name;
use super::paper;
use super::rows::Rows;
use crate::run::Run;

/// The width of a picture: on paper, the type of the widest is two thirds of its natural size.
const LEAST: u32 = 1_040;
const MOST: u32 = 1_560;

/// Left and right of everything.
pub const MARGIN: u32 = 24;

/// Between a name and its lane.
const NAME_GAP: u32 = 12;

/// Right of the lanes, for half of the last tick's label.
const RIGHT: u32 = 44;

/// What lanes take at the least, and what a change asks for.
const LANE: u32 = 700;
const CHANGE: u32 = 8;

pub struct Columns {
    pub width: u32,
    /// The limits of the lanes.
    pub left: u32,
    pub right: u32,
}

impl Columns {
    /// The columns for rows of some height, whose lanes have so many changes each.
    pub fn of(run: &Run, rows: &Rows, height: u32, changes: &[u32]) -> Columns {
        let name = |&node: &u8| Name::of(run.name(node), rows.are_roomy()).width();
        let names = run.watched.iter().map(name).max().unwrap_or(0);
        let left = MARGIN + names + NAME_GAP;
        let beside = left + RIGHT;
        let lanes = changes.iter().map(|&changes| asked(changes, MOST - beside));
        let lane = lanes.max().unwrap_or(0).max(LANE);
        let width = (beside + lane).max(paper::free_width(height));
        let width = width.clamp(LEAST, MOST);
        Columns {
            width,
            left,
            right: width - RIGHT,
        }
    }

    /// Where names end.
    pub fn name_right(&self) -> u32 {
        self.left - NAME_GAP
    }
}

/// What a lane asks for. One whose changes cannot be drawn apart in the greatest width asks for nothing.
fn asked(changes: u32, most: u32) -> u32 {
    match changes.saturating_mul(CLOSE) <= most {
        true => changes.saturating_mul(CHANGE),
        false => 0,
    }
}

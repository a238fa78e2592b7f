//! The refusals' numbers, by the names that `include/timing.h` gives them.

/// The horizon is not from 1 to 1,000,000 ticks.
pub const HORIZON_OUTSIDE: u32 = 1;
/// The sheet's bytes end inside a count or a record.
pub const ENDS_INSIDE: u32 = 2;
/// A count is out of range: nodes 1 to 256, modules 0 to 256, drive events 0 to 1,024, watched nodes 0 to
/// 256.
pub const OUTSIDE_RANGE: u32 = 3;
/// A node's byte is neither an initial value, 0 to 3, nor 4 for an input.
pub const BYTE_ABOVE: u32 = 4;
/// A module's kind is not one that this edition of the sheet has.
pub const KIND_ABOVE: u32 = 5;
/// A module's parameter is not allowed: a constant takes 0 to 3, a memory 0 to 15, any other kind 0.
pub const PARAMETER_NOT_ALLOWED: u32 = 6;
/// A module's output or used input is no node, or an input that its kind lacks is not 0.
pub const WRONG_WIRING: u32 = 7;
/// A module's delay is above 10,000 ticks.
pub const DELAY_ABOVE: u32 = 8;
/// A module drives a node that an earlier module drives already.
pub const ALREADY_DRIVEN: u32 = 9;
/// A driven node is marked as an input, or an undriven node has an initial value.
pub const DRIVEN_OR_NOT: u32 = 10;
/// A drive event's tick is above 999,999.
pub const TICK_ABOVE: u32 = 11;
/// A drive event's node is not an input of the sheet.
pub const NOT_AN_INPUT: u32 = 12;
/// A drive event's value is above 3.
pub const VALUE_ABOVE: u32 = 13;
/// A drive event does not come after the one before it, by tick and then by node.
pub const NOT_ABOVE_BEFORE: u32 = 14;
/// An input has no drive event at tick 0.
pub const NO_FIRST_EVENT: u32 = 15;
/// A watched node is no node of the sheet, or does not come after the one before it.
pub const WRONG_WATCHED: u32 = 16;
/// Bytes are left over after the sheet's end.
pub const LEFT_OVER: u32 = 17;
/// One or more modules of delay 0 form a closed chain.
pub const ON_LOOP: u32 = 18;
/// The listing has no room for all records of a tick.
pub const NO_ROOM: u32 = 19;
/// More than 4,096 changes are pending after a tick.
pub const CROWDED: u32 = 20;
/// The text buffer is shorter than the sentence.
pub const TEXT_SHORT: u32 = 21;
/// A module has a kind above 9, which the first edition of the sheet lacks.
pub const KIND_NOT_IN_FIRST: u32 = 22;
/// The output buffer is shorter than the sheet to be written.
pub const OUTPUT_SHORT: u32 = 23;
/// The pulse width is not from 1 to 10,000 ticks.
pub const WIDTH_OUTSIDE: u32 = 24;
/// The report buffer has no room for all pulses.
pub const REPORT_SHORT: u32 = 25;
/// The inputs and the events to draw are more than 1,024 together, or there is no input to draw events for.
pub const DRAWN_TOO_MANY: u32 = 26;

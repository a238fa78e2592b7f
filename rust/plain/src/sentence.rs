//! An answer as a sentence: what is wrong, the place with its sort, the count of records.

use crate::answer::Answer;
use crate::whole::put_whole;

/// What a refusal's place counts. A bare 0 counts nothing.
#[derive(Clone, Copy)]
enum Sort {
    Byte,
    Node,
    Tick,
    Length,
    Pulses,
    Bare,
}

use Sort::*;

/// What is wrong, and what the place counts, of refusals 1 to 26.
const PHRASES: [(&str, Sort); 26] = [
    ("the horizon is not from 1 to 1,000,000 ticks", Bare),
    ("the sheet's bytes end inside a count or a record", Byte),
    (
        "a count is out of range: nodes 1 to 256, modules 0 to 256, drive events 0 to 1,024, \
         watched nodes 0 to 256",
        Byte,
    ),
    (
        "a node's byte is neither an initial value, 0 to 3, nor 4 for an input",
        Byte,
    ),
    (
        "a module's kind is not one that this edition of the sheet has",
        Byte,
    ),
    (
        "a module's parameter is not allowed: a constant takes 0 to 3, a memory 0 to 15, any \
         other kind 0",
        Byte,
    ),
    (
        "a module's output or used input is no node, or an input that its kind lacks is not 0",
        Byte,
    ),
    ("a module's delay is above 10,000 ticks", Byte),
    (
        "a module drives a node that an earlier module drives already",
        Byte,
    ),
    (
        "a driven node is marked as an input, or an undriven node has an initial value",
        Node,
    ),
    ("a drive event's tick is above 999,999", Byte),
    ("a drive event's node is not an input of the sheet", Byte),
    ("a drive event's value is above 3", Byte),
    (
        "a drive event does not come after the one before it, by tick and then by node",
        Byte,
    ),
    ("an input has no drive event at tick 0", Node),
    (
        "a watched node is no node of the sheet, or does not come after the one before it",
        Byte,
    ),
    ("bytes are left over after the sheet's end", Byte),
    ("one or more modules of delay 0 form a closed chain", Node),
    ("the listing has no room for all records of a tick", Tick),
    ("more than 4,096 changes are pending after a tick", Tick),
    ("the text buffer is shorter than the sentence", Length),
    (
        "a module has a kind above 9, which the first edition of the sheet lacks",
        Byte,
    ),
    (
        "the output buffer is shorter than the sheet to be written",
        Length,
    ),
    ("the pulse width is not from 1 to 10,000 ticks", Bare),
    ("the report buffer has no room for all pulses", Pulses),
    (
        "the inputs and the events to draw are more than 1,024 together, or there is no input to draw events for",
        Bare,
    ),
];

/// The phrase of a refusal's number, if it has one.
pub fn phrase(number: u32) -> Option<&'static str> {
    row(number).map(|(wrong, _)| wrong)
}

fn row(number: u32) -> Option<(&'static str, Sort)> {
    let before = number.checked_sub(1)?;
    PHRASES.get(before as usize).copied()
}

/// The place, after how its sort is said.
fn with_sort(sort: Sort, place: u32) -> String {
    match sort {
        Byte => format!("at the sheet's byte {place}"),
        Node => format!("at node {place}"),
        Tick => format!("at tick {place}"),
        Length => format!("length needed {place}"),
        Pulses => format!("pulses to report {place}"),
        Bare => format!("place {place}"),
    }
}

/// The sentence of an answer.
pub fn sentence(answer: Answer) -> String {
    match answer {
        Answer::Ran { count } => format!("finished, with a count of {count}"),
        Answer::Refused {
            number,
            place,
            count,
        } => {
            let (wrong, place) = match row(number) {
                Some((wrong, sort)) => (wrong.to_string(), with_sort(sort, place)),
                None => {
                    let wrong = format!("the reason is not listed, number {number}");
                    (wrong, with_sort(Bare, place))
                }
            };
            format!("refused: {wrong}, {place}; records written: {count}")
        }
    }
}

/// Writes an answer's sentence to the front of the text, if it takes it whole.
pub fn describe(answer: Answer, text: &mut [u8]) -> Answer {
    put_whole(sentence(answer).as_bytes(), text, 21)
}

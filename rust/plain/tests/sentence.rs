//! Sentences worked out by hand, and what no caller in C can ask for.

use plain::{describe, phrase, sentence, Answer};

fn refused(number: u32, place: u32, count: u32) -> Answer {
    Answer::Refused {
        number,
        place,
        count,
    }
}

#[test]
fn sentences() {
    let cases = [
        (Answer::Ran { count: 6 }, "finished, with a count of 6"),
        (
            refused(1, 0, 0),
            "refused: the horizon is not from 1 to 1,000,000 ticks, place 0; records written: 0",
        ),
        (
            refused(9, 13, 0),
            "refused: a module drives a node that an earlier module drives already, at the \
             sheet's byte 13; records written: 0",
        ),
        (
            refused(15, 3, 0),
            "refused: an input has no drive event at tick 0, at node 3; records written: 0",
        ),
        (
            refused(20, 1_023, 1_024),
            "refused: more than 4,096 changes are pending after a tick, at tick 1023; records \
             written: 1024",
        ),
        (
            refused(21, 27, 0),
            "refused: the text buffer is shorter than the sentence, length needed 27; records \
             written: 0",
        ),
        (
            refused(22, 17, 0),
            "refused: a module has a kind above 9, which the first edition of the sheet lacks, at \
             the sheet's byte 17; records written: 0",
        ),
        (
            refused(23, 8_712, 0),
            "refused: the output buffer is shorter than the sheet to be written, length needed \
             8712; records written: 0",
        ),
        (
            refused(24, 0, 0),
            "refused: the pulse width is not from 1 to 10,000 ticks, place 0; records written: 0",
        ),
        (
            refused(25, 12, 30),
            "refused: the report buffer has no room for all pulses, pulses to report 12; records \
             written: 30",
        ),
        (
            refused(26, 0, 0),
            "refused: the inputs and the events to draw are more than 1,024 together, or there is \
             no input to draw events for, place 0; records written: 0",
        ),
        (
            refused(27, 1, 2),
            "refused: the reason is not listed, number 27, place 1; records written: 2",
        ),
        (
            refused(4_294_967_295, 5, 6),
            "refused: the reason is not listed, number 4294967295, place 5; records written: 6",
        ),
    ];
    for (answer, expected) in cases {
        assert_eq!(sentence(answer), expected);
    }
}

/// Its three words are those of a finished call, and its sentence is not.
#[test]
fn a_refusal_of_number_0() {
    let answer = refused(0, 7, 6);
    assert_eq!(
        sentence(answer),
        "refused: the reason is not listed, number 0, place 7; records written: 6"
    );
    assert_ne!(sentence(answer), sentence(Answer::Ran { count: 6 }));
}

/// No phrase is another's beginning, so none is another.
#[test]
fn no_phrase_begins_another() {
    let phrases: Vec<&str> = (0..100).filter_map(phrase).collect();
    assert_eq!(phrases.len(), 26);
    for (i, one) in phrases.iter().enumerate() {
        for (j, other) in phrases.iter().enumerate() {
            assert!(i == j || !other.starts_with(one), "{one}; {other}");
        }
    }
}

#[test]
fn a_text_that_is_too_short_is_left_alone() {
    let answer = Answer::Ran { count: 6 };
    let mut text = [0xA5; 28];
    assert_eq!(describe(answer, &mut text[..26]), refused(21, 27, 0));
    assert_eq!(text, [0xA5; 28]);
    assert_eq!(describe(answer, &mut text), Answer::Ran { count: 27 });
    assert_eq!(&text[..27], b"finished, with a count of 6");
    assert_eq!(text[27], 0xA5);
}

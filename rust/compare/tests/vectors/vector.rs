//! A vector is a line, its fields divided by tabs: the sheet's edition, the call, its numbers, the
//! horizon, the sheet, the answer, and each lent buffer that has a byte.

use plain::Edition;

/// The byte that fills a buffer before the call. Those at its end are left out of a vector.
pub const UNTOUCHED: u8 = 0xEE;

/// What stands for no bytes and for no numbers.
const NOTHING: &str = "-";

#[derive(Debug)]
pub struct Vector<'a> {
    /// Counted from 1.
    pub line: usize,
    pub edition: Edition,
    pub call: &'a str,
    /// For a run, the bytes of the listing's buffer, and for a conversion, of the output's. For a report of
    /// pulses, the width, the bytes of the listing's buffer and of the report's. For a load, the seed, the
    /// count of events and the bytes of the output's buffer.
    pub numbers: Vec<u32>,
    pub horizon: u32,
    pub sheet: Vec<u8>,
    pub expected: Outcome,
}

/// An answer, and what is left in each lent buffer, without the untouched bytes at its end.
#[derive(Debug, PartialEq, Eq)]
pub struct Outcome {
    pub answer: [u32; 3],
    pub buffers: Vec<Vec<u8>>,
}

pub fn all(text: &str) -> Vec<Vector<'_>> {
    let lines = (1..).zip(text.lines());
    lines.map(|(line, fields)| vector(line, fields)).collect()
}

fn vector(line: usize, fields: &str) -> Vector<'_> {
    let fields: Vec<&str> = fields.split('\t').collect();
    let [edition, call, given, horizon, sheet, answer, ref buffers @ ..] = fields[..] else {
        panic!("line {line} has {} fields", fields.len());
    };
    let edition = match edition {
        "1" => Edition::First,
        "2" => Edition::Second,
        _ => panic!("line {line}: edition {edition}"),
    };
    let answer = numbers(answer).try_into();
    let expected = Outcome {
        answer: answer.unwrap_or_else(|answer| panic!("line {line}: {answer:?}")),
        buffers: buffers.iter().map(|hex| bytes(hex)).collect(),
    };
    Vector {
        line,
        edition,
        call,
        numbers: numbers(given),
        horizon: number(horizon),
        sheet: bytes(sheet),
        expected,
    }
}

fn number(text: &str) -> u32 {
    text.parse()
        .unwrap_or_else(|_| panic!("{text:?} is no number"))
}

fn numbers(text: &str) -> Vec<u32> {
    let words = text.split(' ').filter(|&word| word != NOTHING);
    words.map(number).collect()
}

fn bytes(hex: &str) -> Vec<u8> {
    if hex == NOTHING {
        return Vec::new();
    }
    let (digits, rest) = hex.as_bytes().as_chunks::<2>();
    assert!(rest.is_empty(), "{hex}: half a byte");
    digits.iter().map(|&[high, low]| byte(high, low)).collect()
}

fn byte(high: u8, low: u8) -> u8 {
    let [high, low] = [high, low].map(|digit| char::from(digit).to_digit(16));
    let byte = high.zip(low).map(|(high, low)| 16 * high + low);
    byte.expect("hexadecimal digits") as u8
}

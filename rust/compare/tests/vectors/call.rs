//! A vector's call, by one simulator or the other.

use compare::Lent;
use plain::Edition;

use crate::vector::{Outcome, Vector, UNTOUCHED};

/// A report of pulses, given the horizon and the width.
type Pulses = fn(Edition, &[u8], u32, u32, &mut [u8], &mut [u8]) -> [u32; 3];

/// A load, given the seed and the count of events.
type Load = fn(Edition, &[u8], u32, u32, &mut [u8]) -> [u32; 3];

/// The calls that vectors name, each giving number, place and count.
pub struct Simulator {
    pub name: &'static str,
    check: fn(Edition, &[u8]) -> [u32; 3],
    check_strict: fn(Edition, &[u8]) -> [u32; 3],
    run: fn(Edition, &[u8], u32, &mut [u8]) -> [u32; 3],
    convert: fn(Edition, &[u8], &mut [u8]) -> [u32; 3],
    pulses: Pulses,
    load: Load,
}

pub const PROVED: Simulator = Simulator {
    name: "proved",
    check: compare::check,
    check_strict: compare::check_strict,
    run: compare::run,
    convert: compare::convert,
    pulses: compare::pulses,
    load: compare::load,
};

pub const PLAIN: Simulator = Simulator {
    name: "plain",
    check: |edition, sheet| plain::check(edition, sheet).triple(),
    check_strict: |edition, sheet| plain::check_strict(edition, sheet).triple(),
    run: |edition, sheet, horizon, listing| plain::run(edition, sheet, horizon, listing).triple(),
    convert: |from, sheet, output| plain::convert(from, sheet, output).triple(),
    pulses: |edition, sheet, horizon, width, listing, report| {
        plain::pulses(edition, sheet, horizon, width, listing, report).triple()
    },
    load: |edition, sheet, seed, n, output| plain::load(edition, sheet, seed, n, output).triple(),
};

impl Simulator {
    pub fn outcome(&self, vector: &Vector) -> Outcome {
        let Vector {
            edition,
            ref sheet,
            horizon,
            ..
        } = *vector;
        match (vector.call, &vector.numbers[..]) {
            ("check", []) => over_buffers([], |[]| (self.check)(edition, sheet)),
            ("check_strict", []) => over_buffers([], |[]| (self.check_strict)(edition, sheet)),
            ("run", &[length]) => over_buffers([length], |[listing]| {
                (self.run)(edition, sheet, horizon, listing)
            }),
            ("convert", &[length]) => {
                over_buffers([length], |[output]| (self.convert)(edition, sheet, output))
            }
            ("pulses", &[width, listing, report]) => {
                over_buffers([listing, report], |[listing, report]| {
                    (self.pulses)(edition, sheet, horizon, width, listing, report)
                })
            }
            ("load", &[seed, n, length]) => over_buffers([length], |[output]| {
                (self.load)(edition, sheet, seed, n, output)
            }),
            (call, numbers) => panic!("line {}: {call} with {numbers:?}", vector.line),
        }
    }
}

/// What a call that is lent buffers of these lengths comes to. One of no bytes has no field in a vector.
fn over_buffers<const N: usize>(
    lengths: [u32; N],
    call: impl FnOnce([&mut [u8]; N]) -> [u32; 3],
) -> Outcome {
    let lengths = lengths.map(|length| length as usize);
    let mut buffers = lengths.map(untouched);
    let answer = call(buffers.each_mut().map(Lent::lent));
    let lent = buffers.iter().zip(lengths);
    let with_bytes = lent.filter(|&(_, length)| length > 0);
    Outcome {
        answer,
        buffers: with_bytes
            .map(|(buffer, length)| left(buffer, length))
            .collect(),
    }
}

/// A buffer to be lent to one call.
fn untouched(length: usize) -> Lent {
    let mut buffer = Lent::new(length);
    buffer.lent().fill(UNTOUCHED);
    buffer
}

/// What a call left in a buffer, without the untouched bytes at its end.
fn left(buffer: &Lent, length: usize) -> Vec<u8> {
    let bytes = buffer
        .written(length)
        .expect("nothing around it is written");
    let last = bytes.iter().rposition(|&byte| byte != UNTOUCHED);
    bytes[..last.map_or(0, |last| last + 1)].to_vec()
}

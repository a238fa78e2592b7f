//! Document 02, W-210: a sheet whose drive is drawn from a seed.

use crate::answer::Answer;
use crate::draw::Draws;
use crate::edition::Edition;
use crate::read::read;
use crate::sheet::Event;
use crate::whole::put_whole;

/// Writes the sheet, with `n` events and one for each input in place of its own, to the front of `output`.
/// The answer is the count of bytes written, or the refusal of the sheet's own check, then 26, then 23.
pub fn load(edition: Edition, sheet: &[u8], seed: u32, n: u32, output: &mut [u8]) -> Answer {
    match loaded(edition, sheet, seed, n) {
        Ok(bytes) => put_whole(&bytes, output, 23),
        Err(refusal) => refusal,
    }
}

/// The bytes of the sheet with its new drive.
fn loaded(edition: Edition, sheet: &[u8], seed: u32, n: u32) -> Result<Vec<u8>, Answer> {
    let mut sheet = read(edition, sheet)?;
    let inputs: Vec<u8> = sheet.inputs().collect();
    can_be_drawn(inputs.len(), n)?;
    sheet.drive = drive(&inputs, seed, n);
    Ok(sheet.encode(edition))
}

/// Refusal 26. The sum has more than 32 bits, if need be.
fn can_be_drawn(inputs: usize, n: u32) -> Result<(), Answer> {
    let events = inputs as u64 + u64::from(n);
    if events > 1_024 || (n > 0 && inputs == 0) {
        return Err(Answer::unread(26, 0));
    }
    Ok(())
}

/// An event at tick 0 for each input, and `n` more, each at a later tick than the one before.
fn drive(inputs: &[u8], seed: u32, n: u32) -> Vec<Event> {
    let mut draws = Draws::new(seed);
    let mut events = Vec::new();
    let mut tick = 0;
    for &node in inputs {
        let value = value(&mut draws);
        events.push(Event { tick, node, value });
    }
    for _ in 0..n {
        tick += 1 + u32::from(draws.draw() % 64);
        let node = inputs[usize::from(draws.draw()) % inputs.len()];
        let value = value(&mut draws);
        events.push(Event { tick, node, value });
    }
    events
}

/// Low or high.
fn value(draws: &mut Draws) -> u8 {
    (draws.draw() % 2) as u8
}

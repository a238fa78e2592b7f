//! Reading a sheet: refusals 2 to 18, in the order in which they are met. Of them 15 is met by a
//! strict check alone, and 9 no more: several modules may drive a node (document 02, W-209).

use crate::answer::Answer;
use crate::edition::Edition;
use crate::reader::Reader;
use crate::sheet::{Event, Module, Sheet, INPUT};
use crate::zero_delay;

/// Checks the sheet without running it.
pub fn check(edition: Edition, sheet: &[u8]) -> Answer {
    answer(read(edition, sheet))
}

/// Checks the sheet and that every input has an event at tick 0: refusal 15 otherwise.
pub fn check_strict(edition: Edition, sheet: &[u8]) -> Answer {
    answer(read_then(edition, sheet, every_input_begins))
}

fn answer(read: Result<Sheet, Answer>) -> Answer {
    match read {
        Ok(_) => Answer::Ran { count: 0 },
        Err(refusal) => refusal,
    }
}

/// The sheet that the bytes hold, or the one refusal they meet.
pub fn read(edition: Edition, sheet: &[u8]) -> Result<Sheet, Answer> {
    read_then(edition, sheet, |_| Ok(()))
}

/// Reads front to back. What is asked after the drive is given.
fn read_then(
    edition: Edition,
    sheet: &[u8],
    after_drive: fn(&Sheet) -> Result<(), Answer>,
) -> Result<Sheet, Answer> {
    let mut reader = Reader::new(sheet);
    let mut sheet = Sheet::default();
    read_nodes(&mut reader, &mut sheet)?;
    read_modules(edition, &mut reader, &mut sheet)?;
    after_modules(&sheet)?;
    read_drive(&mut reader, &mut sheet)?;
    after_drive(&sheet)?;
    read_watched(&mut reader, &mut sheet)?;
    after_watched(&reader, &sheet)?;
    Ok(sheet)
}

fn read_nodes(reader: &mut Reader, sheet: &mut Sheet) -> Result<(), Answer> {
    for _ in 0..reader.count(1, 256)? {
        let place = reader.place();
        let [byte] = reader.take()?;
        if byte > INPUT {
            return Err(Answer::unread(4, place));
        }
        sheet.nodes.push(byte);
    }
    Ok(())
}

fn read_modules(edition: Edition, reader: &mut Reader, sheet: &mut Sheet) -> Result<(), Answer> {
    for _ in 0..reader.count(0, 256)? {
        let place = reader.place();
        let module = Module::from_bytes(reader.take_bytes(edition.module_bytes())?);
        if let Some(number) = module_refusal(edition, &module, sheet) {
            return Err(Answer::unread(number, place));
        }
        sheet.modules.push(module);
    }
    Ok(())
}

/// The first of 5 to 8 that the module meets.
fn module_refusal(edition: Edition, module: &Module, sheet: &Sheet) -> Option<u32> {
    if module.kind > edition.greatest_kind() {
        Some(5)
    } else if !parameter_allowed(module) {
        Some(6)
    } else if !nodes_allowed(module, sheet) {
        Some(7)
    } else if module.delay > 10_000 {
        Some(8)
    } else {
        None
    }
}

fn parameter_allowed(module: &Module) -> bool {
    match module.kind {
        0 => module.parameter <= 3,
        9 => module.parameter <= 15,
        _ => module.parameter == 0,
    }
}

fn nodes_allowed(module: &Module, sheet: &Sheet) -> bool {
    sheet.has_node(module.output)
        && module.used_inputs().all(|node| sheet.has_node(node))
        && module.unused_inputs().all(|byte| byte == 0)
}

/// Refusal 10: a node's byte says input exactly where no module drives it.
fn after_modules(sheet: &Sheet) -> Result<(), Answer> {
    for (node, &byte) in sheet.node_numbers().zip(&sheet.nodes) {
        if sheet.is_driven(node) == (byte == INPUT) {
            return Err(Answer::unread(10, usize::from(node)));
        }
    }
    Ok(())
}

fn read_drive(reader: &mut Reader, sheet: &mut Sheet) -> Result<(), Answer> {
    for _ in 0..reader.count(0, 1024)? {
        let place = reader.place();
        let event = Event::from_bytes(reader.take()?);
        if let Some(number) = event_refusal(&event, sheet) {
            return Err(Answer::unread(number, place));
        }
        sheet.drive.push(event);
    }
    Ok(())
}

/// The first of 11 to 14 that the event meets after the events read so far.
fn event_refusal(event: &Event, sheet: &Sheet) -> Option<u32> {
    if event.tick > 999_999 {
        Some(11)
    } else if !sheet.has_input(event.node) {
        Some(12)
    } else if event.value > 3 {
        Some(13)
    } else if sheet
        .drive
        .last()
        .is_some_and(|before| event.key() <= before.key())
    {
        Some(14)
    } else {
        None
    }
}

/// Refusal 15: every input has an event at tick 0.
fn every_input_begins(sheet: &Sheet) -> Result<(), Answer> {
    for node in sheet.inputs() {
        let starts = sheet.drive.iter().any(|event| event.key() == (0, node));
        if !starts {
            return Err(Answer::unread(15, usize::from(node)));
        }
    }
    Ok(())
}

fn read_watched(reader: &mut Reader, sheet: &mut Sheet) -> Result<(), Answer> {
    for _ in 0..reader.count(0, 256)? {
        let place = reader.place();
        let [node] = reader.take()?;
        let rises = sheet.watched.last().is_none_or(|&before| node > before);
        if !sheet.has_node(node) || !rises {
            return Err(Answer::unread(16, place));
        }
        sheet.watched.push(node);
    }
    Ok(())
}

/// Refusals 17 and 18.
fn after_watched(reader: &Reader, sheet: &Sheet) -> Result<(), Answer> {
    if reader.has_more() {
        return Err(Answer::unread(17, reader.place()));
    }
    match zero_delay::least_node_on_a_loop(sheet) {
        Some(node) => Err(Answer::unread(18, usize::from(node))),
        None => Ok(()),
    }
}

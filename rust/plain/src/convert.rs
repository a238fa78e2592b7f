//! Document 02, W-207: a sheet of one edition as a sheet of the other.

use crate::answer::Answer;
use crate::edition::Edition;
use crate::read::read;
use crate::whole::put_whole;

/// Writes the sheet, which is of the edition `from`, to the front of `output` as a sheet of the other
/// edition. The answer is the count of bytes written, or the refusal of the sheet's own check, then 22,
/// then 23.
pub fn convert(from: Edition, sheet: &[u8], output: &mut [u8]) -> Answer {
    match converted(from, sheet) {
        Ok(bytes) => put_whole(&bytes, output, 23),
        Err(refusal) => refusal,
    }
}

/// The sheet's bytes in the other edition, one record after the other. Refusal 22 is met at the first
/// module whose kind the other edition lacks.
fn converted(from: Edition, sheet: &[u8]) -> Result<Vec<u8>, Answer> {
    let read = read(from, sheet)?;
    // Each count has two bytes.
    let (before, rest) = sheet.split_at(2 + read.nodes.len() + 2);
    let (records, after) = rest.split_at(from.module_bytes() * read.modules.len());
    let mut bytes = before.to_vec();
    let mut place = before.len();
    for record in records.chunks(from.module_bytes()) {
        if record[0] > from.other().greatest_kind() {
            return Err(Answer::unread(22, place));
        }
        bytes.extend(record_in_other(from, record));
        place += record.len();
    }
    bytes.extend(after);
    Ok(bytes)
}

/// A module's record with a third input of 0 before its delay, or without its third input: a kind that
/// both editions have does not use it.
fn record_in_other(from: Edition, record: &[u8]) -> Vec<u8> {
    match (from, record) {
        (Edition::First, &[kind, parameter, output, first, second, low, high]) => {
            vec![kind, parameter, output, first, second, 0, low, high]
        }
        (Edition::Second, &[kind, parameter, output, first, second, _, low, high]) => {
            vec![kind, parameter, output, first, second, low, high]
        }
        _ => panic!("{} bytes are no module", record.len()),
    }
}

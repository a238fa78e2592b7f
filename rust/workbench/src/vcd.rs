//! A run as a value change dump, which GTKWave opens.

use std::io::{self, BufWriter, Write};

use timing::{Level, Record};

use crate::run::Run;
use crate::sha256::{hex, sha256};

/// The characters of identifier codes, from `!` to `~`.
const FIRST_CODE: u8 = b'!';
const CODES: usize = 94;

/// A node number has one byte.
const NODES: usize = 256;

/// Stands for a card without a title.
const NO_TITLE: &str = "card";

/// Writes the dump. It has no date, so that the same run gives the same bytes.
pub fn write(run: &Run, out: &mut dyn Write) -> io::Result<()> {
    let mut out = BufWriter::new(out);
    let codes = codes(run.watched);
    head(run, &codes, &mut out)?;
    changes(run, &codes, &mut out)?;
    writeln!(out, "#{}", run.horizon)?;
    out.flush()
}

/// The identifier code of each watched node, by its number.
fn codes(watched: &[u8]) -> Vec<String> {
    let mut codes = vec![String::new(); NODES];
    for (place, &node) in watched.iter().enumerate() {
        codes[usize::from(node)] = code(place);
    }
    codes
}

/// The code of a place among the watched nodes: its digits to the base of 94, the low one first. There are
/// two at the most.
fn code(place: usize) -> String {
    let digit = |number: usize| char::from(FIRST_CODE + number as u8);
    match (place % CODES, place / CODES) {
        (low, 0) => digit(low).to_string(),
        (low, high) => String::from_iter([digit(low), digit(high)]),
    }
}

fn head(run: &Run, codes: &[String], out: &mut dyn Write) -> io::Result<()> {
    let title = match run.title {
        "" => NO_TITLE.to_string(),
        title => word(title),
    };
    let digest = hex(&sha256(run.sheet));
    writeln!(out, "$version timing {} $end", timing::VERSION)?;
    writeln!(out, "$comment")?;
    writeln!(out, "  card {title}")?;
    writeln!(out, "  SHA-256 of the sheet's bytes {digest}")?;
    writeln!(out, "  horizon {}", run.horizon)?;
    writeln!(out, "  one unit of time is one tick")?;
    writeln!(out, "$end")?;
    writeln!(out, "$timescale 1 ns $end")?;
    writeln!(out, "$scope module {title} $end")?;
    for &node in run.watched {
        let code = &codes[usize::from(node)];
        writeln!(out, "$var wire 1 {code} {} $end", word(run.name(node)))?;
    }
    writeln!(out, "$upscope $end")?;
    writeln!(out, "$enddefinitions $end")
}

/// A text as one word of a dump: `$` would begin a keyword there.
fn word(text: &str) -> String {
    let parts = |c: char| c.is_whitespace() || c.is_control() || c == '$';
    text.replace(parts, "_")
}

/// All records, each tick's after its number. Those of tick 0, one for each watched node, are one command.
fn changes(run: &Run, codes: &[String], out: &mut dyn Write) -> io::Result<()> {
    let change = |out: &mut dyn Write, record: Record| {
        let code = &codes[usize::from(record.node)];
        writeln!(out, "{}{code}", letter(record.value))
    };
    let first = run.watched.len();
    let mut now = 0;
    writeln!(out, "#{now}\n$dumpvars")?;
    for record in run.listing.iter().take(first) {
        change(out, record)?;
    }
    writeln!(out, "$end")?;
    for record in run.listing.iter().skip(first) {
        if record.tick != now {
            now = record.tick;
            writeln!(out, "#{now}")?;
        }
        change(out, record)?;
    }
    Ok(())
}

fn letter(value: Level) -> char {
    value.letter().to_ascii_lowercase()
}

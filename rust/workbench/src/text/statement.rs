//! The statements of a text, a line each.

use timing::{Edition, Level};

use super::draft::{Draft, Event, Module, Reference};
use super::words::{Token, Words};
use crate::contents::{Section, INPUT};
use crate::kind::{self, CONSTANT, MEMORY};
use crate::mistake::{quoted, Mistake};

/// The most that a record's fields hold.
const MOST_DELAY: u32 = u16::MAX as u32;
const MOST_TICK: u32 = u32::MAX;

/// Reads one line of a text.
pub fn statement<'a>(draft: &mut Draft<'a>, words: &mut Words<'a>) -> Result<(), Mistake> {
    let first = words.peek();
    if first.is_end() {
        return Ok(());
    }
    let mut ahead = words.clone();
    ahead.next();
    if first.is("@") || ahead.peek().is("=") {
        module(draft, words)?;
        return words.expect_end();
    }
    words.next();
    match first.text {
        "input" => {
            let name = name(words)?;
            draft.declare(name, INPUT)?;
        }
        "node" => node(draft, words)?,
        "drive" => drive(draft, words)?,
        "watch" => watch(draft, words)?,
        "raw" => raw(draft, words)?,
        _ => {
            let expected = "`input`, `node`, `drive`, `watch`, `raw`, or a node's name and `=`";
            return Err(first.mistake(expected));
        }
    }
    words.expect_end()
}

fn name<'a>(words: &mut Words<'a>) -> Result<Token<'a>, Mistake> {
    let token = words.next();
    match token.is_word() {
        true => Ok(token),
        false => Err(token.mistake("a name")),
    }
}

fn reference<'a>(words: &mut Words<'a>) -> Result<Reference<'a>, Mistake> {
    let token = words.peek();
    if words.take("@") {
        return Ok(Reference::Number(token, words.byte("a node's number")?));
    }
    match token.is_word() {
        true => Ok(Reference::Name(words.next())),
        false => Err(token.mistake("a node's name")),
    }
}

fn value(words: &mut Words) -> Result<Level, Mistake> {
    let token = words.next();
    let level = Level::ALL.into_iter().find(|level| {
        let mut letter = [0; 1];
        token.is(level.letter().encode_utf8(&mut letter))
    });
    level.ok_or_else(|| token.mistake("a value: `0`, `1`, `X` or `Z`"))
}

fn delay(words: &mut Words) -> Result<u16, Mistake> {
    words.expect("delay")?;
    let delay = words.number("a delay in ticks", MOST_DELAY)?;
    Ok(u16::try_from(delay).expect("it is at most 65,535"))
}

/// `node NAME initial VALUE`
fn node<'a>(draft: &mut Draft<'a>, words: &mut Words<'a>) -> Result<(), Mistake> {
    let name = name(words)?;
    words.expect("initial")?;
    draft.declare(name, value(words)?.byte())
}

/// `NAME = KIND(..) [set {..}] delay N [initial VALUE]`
fn module<'a>(draft: &mut Draft<'a>, words: &mut Words<'a>) -> Result<(), Mistake> {
    let output = reference(words)?;
    words.expect("=")?;
    let (kind, mut parameter, inputs) = gate(draft, words)?;
    if kind == MEMORY {
        parameter = set(words)?;
    }
    let delay = delay(words)?;
    if let Reference::Name(name) = output {
        if words.take("initial") {
            let initial = value(words)?;
            draft.declare(name, initial.byte())?;
        }
    }
    draft.add_module(Module {
        kind,
        parameter,
        output,
        inputs,
        delay,
    })
}

/// `KIND(NAME, ..)`: the kind, a constant's value, and the inputs.
fn gate<'a>(
    draft: &Draft<'a>,
    words: &mut Words<'a>,
) -> Result<(u8, u8, Vec<Reference<'a>>), Mistake> {
    let word = words.next();
    let counts = kind::input_counts(draft.edition, word.text);
    let Some(&most) = counts.iter().max() else {
        return Err(unknown_kind(draft.edition, word));
    };
    words.expect("(")?;
    if most == 0 {
        let value = value(words)?;
        words.expect(")")?;
        return Ok((CONSTANT, value.byte(), Vec::new()));
    }
    let mut inputs = vec![reference(words)?];
    while inputs.len() < most && words.take(",") {
        inputs.push(reference(words)?);
    }
    match kind::find(draft.edition, word.text, inputs.len()) {
        Some(kind) => {
            close(draft.edition, words, word)?;
            Ok((kind, 0, inputs))
        }
        None => Err(words.next().mistake("`,` and an input more")),
    }
}

fn unknown_kind(edition: Edition, word: Token) -> Mistake {
    if !kind::input_counts(Edition::Second, word.text).is_empty() {
        return word.mistake("a kind that `timing-1` has; `timing-2` has this one");
    }
    let names = kind::names(edition).join(", ");
    word.mistake(format!("a kind of module: {names}"))
}

/// The bracket after the inputs of a kind, which may have one more in the second edition.
fn close(edition: Edition, words: &mut Words, kind: Token) -> Result<(), Mistake> {
    let token = words.peek();
    let in_first = kind::input_counts(edition, kind.text);
    if token.is(",") && kind::input_counts(Edition::Second, kind.text) != in_first {
        return Err(token.mistake("`)`; a gate of three inputs needs `timing-2`"));
    }
    words.expect(")")?;
    Ok(())
}

/// `set {VALUE, ..}`: bit v stands for value v.
fn set(words: &mut Words) -> Result<u8, Mistake> {
    words.expect("set")?;
    words.expect("{")?;
    let mut set = 0;
    if words.take("}") {
        return Ok(set);
    }
    loop {
        let token = words.peek();
        let bit = 1 << value(words)?.byte();
        if set & bit != 0 {
            return Err(token.mistake("a value that the set does not have yet"));
        }
        set |= bit;
        if !words.take(",") {
            break;
        }
    }
    words.expect("}")?;
    Ok(set)
}

/// `drive NAME: VALUE at N, ..`
fn drive<'a>(draft: &mut Draft<'a>, words: &mut Words<'a>) -> Result<(), Mistake> {
    let node = reference(words)?;
    words.expect(":")?;
    loop {
        let token = words.peek();
        let value = value(words)?.byte();
        words.expect("at")?;
        let tick = words.number("a tick", MOST_TICK)?;
        let event = Event {
            token,
            node,
            tick,
            value,
        };
        draft.add_event(event, false)?;
        if !words.take(",") {
            return Ok(());
        }
    }
}

/// `watch NAME, ..`
fn watch<'a>(draft: &mut Draft<'a>, words: &mut Words<'a>) -> Result<(), Mistake> {
    loop {
        let node = reference(words)?;
        draft.add_watched(node, false)?;
        if !words.take(",") {
            return Ok(());
        }
    }
}

fn raw<'a>(draft: &mut Draft<'a>, words: &mut Words<'a>) -> Result<(), Mistake> {
    let what = words.next();
    match what.text {
        "node" => {
            let name = name(words)?;
            words.expect("byte")?;
            draft.declare(name, words.byte("a node's byte")?)
        }
        "module" => raw_module(draft, words),
        "event" => raw_event(draft, words, what),
        "watch" => draft.add_watched(reference(words)?, true),
        "bytes" => raw_bytes(draft, words),
        _ => Err(what.mistake("`node`, `module`, `event`, `watch` or `bytes`")),
    }
}

/// `raw module kind N parameter N output @N inputs @N @N delay N`
fn raw_module<'a>(draft: &mut Draft<'a>, words: &mut Words<'a>) -> Result<(), Mistake> {
    words.expect("kind")?;
    let kind = words.byte("a kind's number")?;
    words.expect("parameter")?;
    let parameter = words.byte("a parameter")?;
    words.expect("output")?;
    let output = reference(words)?;
    words.expect("inputs")?;
    let mut inputs = vec![reference(words)?, reference(words)?];
    if draft.edition == Edition::Second {
        inputs.push(reference(words)?);
    }
    let delay = delay(words)?;
    draft.add_module(Module {
        kind,
        parameter,
        output,
        inputs,
        delay,
    })
}

/// `raw event tick N node NAME value N`
fn raw_event<'a>(
    draft: &mut Draft<'a>,
    words: &mut Words<'a>,
    token: Token<'a>,
) -> Result<(), Mistake> {
    words.expect("tick")?;
    let tick = words.number("a tick", MOST_TICK)?;
    words.expect("node")?;
    let node = reference(words)?;
    words.expect("value")?;
    let value = words.byte("a value's byte")?;
    let event = Event {
        token,
        node,
        tick,
        value,
    };
    draft.add_event(event, true)
}

/// `raw bytes from SECTION: HH HH ..`
fn raw_bytes<'a>(draft: &mut Draft<'a>, words: &mut Words<'a>) -> Result<(), Mistake> {
    words.expect("from")?;
    let token = words.next();
    let named = |section: &Section| token.is(section.name());
    let Some(section) = Section::ALL.into_iter().find(named) else {
        let names = Section::ALL
            .map(|section| quoted(section.name()))
            .join(", ");
        return Err(token.mistake(format!("a section: {names}")));
    };
    words.expect(":")?;
    let bytes = draft.rest_from(token, section)?;
    while !words.peek().is_end() {
        bytes.push(hexadecimal(words)?);
    }
    Ok(())
}

fn hexadecimal(words: &mut Words) -> Result<u8, Mistake> {
    let token = words.next();
    let digits = token.text.len() == 2 && token.text.bytes().all(|byte| byte.is_ascii_hexdigit());
    match u8::from_str_radix(token.text, 16) {
        Ok(byte) if digits => Ok(byte),
        _ => Err(token.mistake("a byte of two hexadecimal digits")),
    }
}

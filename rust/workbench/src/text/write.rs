//! A card becomes a text: assembling it gives the same sheet.

use std::fmt::Write;

use timing::{Edition, Level};

use super::first_word;
use crate::card::Card;
use crate::contents::{Event, Module, INPUT};
use crate::kind::{self, CONSTANT, MEMORY};

/// The columns that a line of events or bytes keeps to.
const WIDTH: usize = 100;

/// The bytes in a line of raw ones.
const BYTES_IN_LINE: usize = 24;

/// The text of a card.
pub fn write(card: &Card) -> String {
    let parts = [
        format!("{}\n", first_word(card.edition)),
        nodes_and_modules(card),
        drive(card),
        watched(card),
        rest(card),
    ];
    let parts: Vec<String> = parts.into_iter().filter(|part| !part.is_empty()).collect();
    parts.join("\n")
}

/// Nodes and modules, each in their order. Where the next module drives the next node, one line has both.
fn nodes_and_modules(card: &Card) -> String {
    let mut text = String::new();
    let mut modules = card.contents.modules.iter().peekable();
    for (node, &byte) in (0..=u8::MAX).zip(&card.contents.nodes) {
        let name = card.name(node);
        match (byte, Level::from_byte(byte)) {
            (INPUT, _) => text += &format!("input {name}\n"),
            (_, None) => text += &format!("raw node {name} byte {byte}\n"),
            (_, Some(initial)) => {
                let driver =
                    modules.next_if(|module| module.output == node && is_plain(card, module));
                text += &match driver {
                    Some(module) => format!("{} initial {initial}\n", module_text(card, module)),
                    None => format!("node {name} initial {initial}\n"),
                };
            }
        }
    }
    for module in modules {
        text += &module_text(card, module);
        text.push('\n');
    }
    text
}

/// Whether a module's record has a statement of its own.
fn is_plain(card: &Card, module: &Module) -> bool {
    let Some((_, inputs)) = kind::named(card.edition, module.kind) else {
        return false;
    };
    module.parameter <= kind::greatest_parameter(module.kind)
        && module.inputs[inputs..].iter().all(|&input| input == 0)
}

fn module_text(card: &Card, module: &Module) -> String {
    match kind::named(card.edition, module.kind) {
        Some((name, inputs)) if is_plain(card, module) => plain_module(card, module, name, inputs),
        _ => raw_module(card, module),
    }
}

fn plain_module(card: &Card, module: &Module, name: &str, inputs: usize) -> String {
    let output = card.name(module.output);
    let arguments = match module.kind {
        CONSTANT => letter(module.parameter),
        _ => {
            let inputs = module.inputs[..inputs].iter();
            let names: Vec<String> = inputs.map(|&input| card.name(input)).collect();
            names.join(", ")
        }
    };
    let set = match module.kind {
        MEMORY => format!(" set {{{}}}", members(module.parameter)),
        _ => String::new(),
    };
    format!("{output} = {name}({arguments}){set} delay {}", module.delay)
}

/// A value's letter, which a constant's parameter is.
fn letter(byte: u8) -> String {
    Level::from_byte(byte).map_or_else(String::new, |level| level.to_string())
}

/// The values of a set.
fn members(set: u8) -> String {
    let members = Level::ALL
        .into_iter()
        .filter(|level| set & (1 << level.byte()) != 0);
    let letters: Vec<String> = members.map(|level| level.to_string()).collect();
    letters.join(", ")
}

fn raw_module(card: &Card, module: &Module) -> String {
    let [first, second, third] = module.inputs;
    let third = match card.edition {
        Edition::First => String::new(),
        Edition::Second => format!(" @{third}"),
    };
    format!(
        "raw module kind {} parameter {} output @{} inputs @{first} @{second}{third} delay {}",
        module.kind, module.parameter, module.output, module.delay
    )
}

/// The events by node where they stand in order and have values, and one after the other where not.
fn drive(card: &Card) -> String {
    let events = &card.contents.drive;
    let rising = events.is_sorted_by(|before, event| before.key() < event.key());
    let values = events
        .iter()
        .all(|event| Level::from_byte(event.value).is_some());
    match rising && values {
        true => drive_by_node(card),
        false => events.iter().map(|event| raw_event(card, event)).collect(),
    }
}

fn raw_event(card: &Card, event: &Event) -> String {
    let name = card.name(event.node);
    let Event { tick, value, .. } = event;
    format!("raw event tick {tick} node {name} value {value}\n")
}

fn drive_by_node(card: &Card) -> String {
    let mut by_node: Vec<Vec<&Event>> = vec![Vec::new(); usize::from(u8::MAX) + 1];
    for event in &card.contents.drive {
        by_node[usize::from(event.node)].push(event);
    }
    let mut text = String::new();
    for events in by_node.iter().filter(|events| !events.is_empty()) {
        let head = format!("drive {}:", card.name(events[0].node));
        let told = |event: &&Event| format!(" {} at {}", letter(event.value), event.tick);
        in_lines(&mut text, &head, events.iter().map(told));
    }
    text
}

/// Puts the parts, with commas between them, into lines that each begin with the head.
fn in_lines(text: &mut String, head: &str, parts: impl Iterator<Item = String>) {
    let mut line = String::new();
    for part in parts {
        if line.is_empty() {
            line = format!("{head}{part}");
        } else if line.chars().count() + part.len() < WIDTH {
            line = format!("{line},{part}");
        } else {
            text.push_str(&line);
            text.push('\n');
            line = format!("{head}{part}");
        }
    }
    text.push_str(&line);
    text.push('\n');
}

/// The watched nodes, which are named where they rise and there are such nodes, and raw where not.
fn watched(card: &Card) -> String {
    let watched = &card.contents.watched;
    let rising = watched.is_sorted_by(|before, node| before < node);
    let word = match rising {
        true => "watch",
        false => "raw watch",
    };
    let line = |&node: &u8| format!("{word} {}\n", card.name(node));
    watched.iter().map(line).collect()
}

/// The bytes that are no records.
fn rest(card: &Card) -> String {
    if card.contents.is_whole() {
        return String::new();
    }
    let rest = &card.contents.rest;
    let head = format!("raw bytes from {}:", rest.from.name());
    if rest.bytes.is_empty() {
        return format!("{head}\n");
    }
    let mut text = String::new();
    for bytes in rest.bytes.chunks(BYTES_IN_LINE) {
        text.push_str(&head);
        for byte in bytes {
            write!(text, " {byte:02X}").expect("a text takes all");
        }
        text.push('\n');
    }
    text
}

//! From what a text says to the sheet: names become numbers, events and watched nodes are put in order.

use super::draft::{Draft, Event, Reference};
use super::words::Token;
use crate::card::{Card, Lines};
use crate::contents::{self, Contents, Section};
use crate::mistake::{quoted, Mistake};

/// The card of a text that has been read, `end` being the place after its last line.
pub fn card(draft: Draft, end: Token) -> Result<Card, Mistake> {
    let mut lines = Lines::default();
    let mut contents = Contents::default();
    for node in &draft.nodes {
        contents.nodes.push(node.byte);
        lines.nodes.push(node.token.line);
    }
    for module in &draft.modules {
        contents.modules.push(contents::Module {
            kind: module.kind,
            parameter: module.parameter,
            output: output(&draft, module.output)?,
            inputs: inputs(&draft, &module.inputs)?,
            delay: module.delay,
        });
        lines.modules.push(module.output.token().line);
    }
    for (event, line) in drive(&draft)? {
        contents.drive.push(event);
        lines.drive.push(line);
    }
    for (node, line) in watched(&draft)? {
        contents.watched.push(node);
        lines.watched.push(line);
    }
    contents.rest = rest(&draft, end)?;
    let names = draft.nodes.iter().map(|node| node.token.text.to_string());
    Ok(Card {
        edition: draft.edition,
        sheet: contents.bytes(draft.edition),
        contents,
        names: names.collect(),
        lines: Some(lines),
    })
}

/// The number of a node.
fn number(draft: &Draft, reference: Reference) -> Result<u8, Mistake> {
    match reference {
        Reference::Number(_, number) => Ok(number),
        Reference::Name(token) => draft.by_name.get(token.text).copied().ok_or_else(|| {
            let found = format!("{}, which no line declares", quoted(token.text));
            token.instead(found, "a node: `input`, `node` or `initial` declares one")
        }),
    }
}

/// The number of a module's output, whose own line may declare it.
fn output(draft: &Draft, reference: Reference) -> Result<u8, Mistake> {
    number(draft, reference).map_err(|mistake| Mistake {
        expected: "`initial` and a value at the end of its line, or another line that declares it"
            .to_string(),
        ..mistake
    })
}

fn inputs(draft: &Draft, references: &[Reference]) -> Result<[u8; 3], Mistake> {
    let mut inputs = [0; 3];
    for (input, &reference) in inputs.iter_mut().zip(references) {
        *input = number(draft, reference)?;
    }
    Ok(inputs)
}

/// The events in order, those of raw lines last, and the line of each.
fn drive(draft: &Draft) -> Result<Vec<(contents::Event, usize)>, Mistake> {
    let mut events = Vec::new();
    for event in &draft.drive {
        events.push((resolved(draft, event)?, event.token));
    }
    events.sort_by_key(|(event, _)| event.key());
    for pair in events.windows(2) {
        let [(before, first), (event, second)] = pair else {
            continue;
        };
        if before.key() == event.key() {
            let found = format!("a second event at tick {}", event.tick);
            let expected = format!(
                "one event of a node at a tick, and line {} has it",
                first.line
            );
            return Err(second.instead(found, expected));
        }
    }
    for event in &draft.raw_drive {
        events.push((resolved(draft, event)?, event.token));
    }
    let with_line = |(event, token): (contents::Event, Token)| (event, token.line);
    Ok(events.into_iter().map(with_line).collect())
}

fn resolved(draft: &Draft, event: &Event) -> Result<contents::Event, Mistake> {
    Ok(contents::Event {
        tick: event.tick,
        node: number(draft, event.node)?,
        value: event.value,
    })
}

/// The watched nodes in order, those of raw lines last, and the line of each.
fn watched(draft: &Draft) -> Result<Vec<(u8, usize)>, Mistake> {
    let mut watched = Vec::new();
    for &reference in &draft.watched {
        watched.push((number(draft, reference)?, reference.token()));
    }
    watched.sort_by_key(|&(node, _)| node);
    for pair in watched.windows(2) {
        let [(before, first), (node, second)] = pair else {
            continue;
        };
        if before == node {
            let found = format!("{} a second time", quoted(second.text));
            let expected = format!("each watched node once, and line {} has it", first.line);
            return Err(second.instead(found, expected));
        }
    }
    for &reference in &draft.raw_watched {
        watched.push((number(draft, reference)?, reference.token()));
    }
    let with_line = |(node, token): (u8, Token)| (node, token.line);
    Ok(watched.into_iter().map(with_line).collect())
}

/// The bytes after the records. Where a text gives them from a section on, it has no record of that section
/// or a later one; where it does not, it has a node.
fn rest(draft: &Draft, end: Token) -> Result<contents::Rest, Mistake> {
    let Some(rest) = &draft.rest else {
        return match draft.nodes.is_empty() {
            true => Err(end.instead("the end of the text", "a node: a sheet has at least one")),
            false => Ok(contents::Rest {
                from: Section::End,
                bytes: Vec::new(),
            }),
        };
    };
    let records = [
        (Section::Nodes, draft.nodes.len()),
        (Section::Modules, draft.modules.len()),
        (Section::Drive, draft.drive.len() + draft.raw_drive.len()),
        (
            Section::Watched,
            draft.watched.len() + draft.raw_watched.len(),
        ),
    ];
    for (section, count) in records {
        if section >= rest.from && count > 0 {
            let found = format!("bytes from {} on", quoted(rest.from.name()));
            let expected = format!("no other line for {}", quoted(section.name()));
            return Err(rest.token.instead(found, expected));
        }
    }
    Ok(contents::Rest {
        from: rest.from,
        bytes: rest.bytes.clone(),
    })
}

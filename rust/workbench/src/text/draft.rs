//! What has been read of a text: records that still name their nodes.

use std::collections::HashMap;

use timing::Edition;

use super::words::{is_name, Token, LONGEST_NAME};
use crate::contents::{Section, MOST_EVENTS, MOST_MODULES, MOST_NODES, MOST_WATCHED};
use crate::mistake::{quoted, Mistake};

/// A node as a text names it.
#[derive(Debug, Clone, Copy)]
pub enum Reference<'a> {
    Name(Token<'a>),
    /// `@N`, at a place of the text.
    Number(Token<'a>, u8),
}

impl<'a> Reference<'a> {
    /// Where it stands.
    pub fn token(&self) -> Token<'a> {
        match *self {
            Reference::Name(token) | Reference::Number(token, _) => token,
        }
    }
}

/// A node that a line declares.
#[derive(Debug)]
pub struct Node<'a> {
    pub token: Token<'a>,
    pub byte: u8,
}

/// A module. Inputs that it lacks are not there, and stand for 0.
#[derive(Debug)]
pub struct Module<'a> {
    pub kind: u8,
    pub parameter: u8,
    pub output: Reference<'a>,
    pub inputs: Vec<Reference<'a>>,
    pub delay: u16,
}

/// An event. Raw ones keep the order of their lines.
#[derive(Debug)]
pub struct Event<'a> {
    /// Where its value stands.
    pub token: Token<'a>,
    pub node: Reference<'a>,
    pub tick: u32,
    pub value: u8,
}

/// The bytes from a section on.
#[derive(Debug)]
pub struct Rest<'a> {
    pub token: Token<'a>,
    pub from: Section,
    pub bytes: Vec<u8>,
}

#[derive(Debug)]
pub struct Draft<'a> {
    pub edition: Edition,
    pub nodes: Vec<Node<'a>>,
    pub by_name: HashMap<&'a str, u8>,
    pub modules: Vec<Module<'a>>,
    pub drive: Vec<Event<'a>>,
    pub raw_drive: Vec<Event<'a>>,
    pub watched: Vec<Reference<'a>>,
    pub raw_watched: Vec<Reference<'a>>,
    pub rest: Option<Rest<'a>>,
}

impl<'a> Draft<'a> {
    pub fn new(edition: Edition) -> Draft<'a> {
        Draft {
            edition,
            nodes: Vec::new(),
            by_name: HashMap::new(),
            modules: Vec::new(),
            drive: Vec::new(),
            raw_drive: Vec::new(),
            watched: Vec::new(),
            raw_watched: Vec::new(),
            rest: None,
        }
    }

    /// Declares the next node by its name.
    pub fn declare(&mut self, token: Token<'a>, byte: u8) -> Result<(), Mistake> {
        if !is_name(token.text) {
            return Err(token.mistake(format!("a name of 1 to {LONGEST_NAME} characters")));
        }
        room(token, "nodes", self.nodes.len(), MOST_NODES)?;
        let number = u8::try_from(self.nodes.len()).expect("there are fewer than 256");
        if let Some(before) = self.by_name.insert(token.text, number) {
            let line = self.nodes[usize::from(before)].token.line;
            let found = format!("a second declaration of {}", quoted(token.text));
            return Err(token.instead(found, format!("one, and line {line} has it")));
        }
        self.nodes.push(Node { token, byte });
        Ok(())
    }

    pub fn add_module(&mut self, module: Module<'a>) -> Result<(), Mistake> {
        let token = module.output.token();
        room(token, "modules", self.modules.len(), MOST_MODULES)?;
        self.modules.push(module);
        Ok(())
    }

    pub fn add_event(&mut self, event: Event<'a>, raw: bool) -> Result<(), Mistake> {
        let events = self.drive.len() + self.raw_drive.len();
        room(event.token, "events", events, MOST_EVENTS)?;
        match raw {
            true => self.raw_drive.push(event),
            false => self.drive.push(event),
        }
        Ok(())
    }

    pub fn add_watched(&mut self, node: Reference<'a>, raw: bool) -> Result<(), Mistake> {
        let watched = self.watched.len() + self.raw_watched.len();
        room(node.token(), "watched nodes", watched, MOST_WATCHED)?;
        match raw {
            true => self.raw_watched.push(node),
            false => self.watched.push(node),
        }
        Ok(())
    }

    /// The bytes from a section on, which further lines may carry on.
    pub fn rest_from(&mut self, token: Token<'a>, from: Section) -> Result<&mut Vec<u8>, Mistake> {
        let rest = self.rest.get_or_insert(Rest {
            token,
            from,
            bytes: Vec::new(),
        });
        if rest.from != from {
            let expected = format!("`{}`, as in line {}", rest.from.name(), rest.token.line);
            return Err(token.mistake(expected));
        }
        Ok(&mut rest.bytes)
    }
}

/// A section takes one record more.
fn room(token: Token, what: &str, there: usize, most: usize) -> Result<(), Mistake> {
    match there < most {
        true => Ok(()),
        false => Err(token.instead(
            format!("more than {most} {what}"),
            format!("at most {most}"),
        )),
    }
}

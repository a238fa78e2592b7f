//! Reading a .bench file, statement by statement.

use super::gate::Gate;
use super::netlist::{Name, Netlist};
use super::scan::{Scanner, Sort, Token};
use crate::mistake::{quoted, utf8, Mistake};
use crate::text;

/// What a statement may begin with.
const STATEMENT: &str = "`INPUT`, `OUTPUT`, or a name and `=`";

/// The netlist of a file, or its first mistake.
pub fn netlist(source: &[u8]) -> Result<Netlist<'_>, Mistake> {
    let mut reader = Reader {
        scanner: Scanner::new(utf8(source)?),
        netlist: Netlist::default(),
    };
    loop {
        let token = reader.scanner.next()?;
        match token.sort {
            Sort::Word(word) => reader.statement(word, token)?,
            Sort::LineEnd => {}
            Sort::FileEnd => return reader.netlist.finished(token),
            Sort::Sign(_) => return Err(token.mistake(STATEMENT)),
        }
    }
}

struct Reader<'a> {
    scanner: Scanner<'a>,
    netlist: Netlist<'a>,
}

impl<'a> Reader<'a> {
    /// The statement that begins with this word.
    fn statement(&mut self, word: &'a str, first: Token<'a>) -> Result<(), Mistake> {
        let second = self.scanner.next()?;
        match (second.sort, Port::named(word)) {
            (Sort::Sign('='), _) => self.gate(name(word, first)?),
            (Sort::Sign('('), Some(port)) => self.port(port, first),
            (Sort::Sign('('), None) => Err(first.mistake(STATEMENT)),
            (_, Some(_)) => Err(second.mistake(quoted("("))),
            (_, None) => Err(second.mistake(quoted("="))),
        }
    }

    /// The rest of `INPUT(name)` or `OUTPUT(name)`.
    fn port(&mut self, port: Port, first: Token<'a>) -> Result<(), Mistake> {
        let name = self.name()?;
        self.sign(')')?;
        self.line_end()?;
        match port {
            Port::Input => self.netlist.input(name, first.place),
            Port::Output => self.netlist.output(name, first.place),
        }
    }

    /// The rest of `name = GATE(name, ..)`.
    fn gate(&mut self, output: Name<'a>) -> Result<(), Mistake> {
        let (word, gate) = self.gate_word()?;
        self.sign('(')?;
        let inputs = self.inputs(word, gate, output)?;
        self.line_end()?;
        self.netlist.gate(output, gate, inputs)
    }

    /// A gate, and its word for messages.
    fn gate_word(&mut self) -> Result<(&'static str, Gate), Mistake> {
        let token = self.scanner.next()?;
        let named = match token.sort {
            Sort::Word(word) => Gate::named(word),
            _ => None,
        };
        named.ok_or_else(|| token.mistake(format!("a gate: {}", Gate::words())))
    }

    /// The inputs of a gate, up to the bracket after them. A gate of too many is not read to its end.
    fn inputs(
        &mut self,
        word: &str,
        gate: Gate,
        output: Name<'a>,
    ) -> Result<Vec<Name<'a>>, Mistake> {
        let mut inputs = Vec::new();
        loop {
            inputs.push(self.name()?);
            self.netlist
                .has_room_for(gate.modules(inputs.len()), output.place)?;
            let token = self.scanner.next()?;
            match token.sort {
                Sort::Sign(')') => return Ok(inputs),
                Sort::Sign(',') if gate.takes_several() => {}
                _ if gate.takes_several() => return Err(token.mistake("`,` or `)`")),
                _ => return Err(token.mistake(format!("`)`: {word} has one input"))),
            }
        }
    }

    fn name(&mut self) -> Result<Name<'a>, Mistake> {
        let token = self.scanner.next()?;
        match token.sort {
            Sort::Word(word) => name(word, token),
            _ => Err(token.mistake("a name")),
        }
    }

    fn sign(&mut self, sign: char) -> Result<(), Mistake> {
        let token = self.scanner.next()?;
        match token.sort {
            Sort::Sign(found) if found == sign => Ok(()),
            _ => Err(token.mistake(quoted(&sign.to_string()))),
        }
    }

    fn line_end(&mut self) -> Result<(), Mistake> {
        let token = self.scanner.next()?;
        match token.sort {
            Sort::LineEnd | Sort::FileEnd => Ok(()),
            _ => Err(token.mistake("the end of the line")),
        }
    }
}

/// The name that a word is, if a text can have it.
fn name<'a>(word: &'a str, token: Token<'a>) -> Result<Name<'a>, Mistake> {
    match text::is_name(word) {
        true => Ok(Name {
            text: word,
            place: token.place,
        }),
        false => Err(token.mistake(format!(
            "a name of 1 to {} letters, digits and _ . [ ] / -",
            text::LONGEST_NAME
        ))),
    }
}

/// What stands before a bracket without being a gate.
#[derive(Debug, Clone, Copy)]
enum Port {
    Input,
    Output,
}

impl Port {
    fn named(word: &str) -> Option<Port> {
        let ports = [("INPUT", Port::Input), ("OUTPUT", Port::Output)];
        let port = ports
            .into_iter()
            .find(|(known, _)| known.eq_ignore_ascii_case(word));
        port.map(|(_, port)| port)
    }
}

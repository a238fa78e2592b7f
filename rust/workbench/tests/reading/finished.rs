//! Finished runs, with all that is shown of them.

use generate::sheets::{gate, sheet, INVERTER};
use generate::{Generator, RunInput};
use plain::{worked_run, Edition, Module, Sheet, INPUT, LOW};
use timing::Listing;
use workbench::run::Run;

/// The records that a generated run has room for.
const ROOM: usize = 20_000;

pub struct Finished {
    pub title: String,
    pub sheet: Vec<u8>,
    pub names: Vec<String>,
    pub watched: Vec<u8>,
    pub horizon: u32,
    pub listing: Listing,
}

impl Finished {
    /// The run of these bytes, unless it is refused.
    fn of(
        edition: Edition,
        bytes: &[u8],
        horizon: u32,
        run: impl FnOnce(timing::Sheet) -> Option<Listing>,
    ) -> Option<Finished> {
        let sheet = plain::read(edition, bytes).ok()?;
        let library = match edition {
            Edition::First => timing::Edition::First,
            Edition::Second => timing::Edition::Second,
        };
        Some(Finished {
            title: "card".to_string(),
            sheet: bytes.to_vec(),
            names: sheet.node_numbers().map(name).collect(),
            watched: sheet.watched,
            horizon,
            listing: run(timing::Sheet::new(library, bytes))?,
        })
    }

    /// A run that finishes, with as much room as it takes.
    fn whole(sheet: &Sheet, horizon: u32) -> Finished {
        let edition = Edition::First;
        let run = |sheet: timing::Sheet| sheet.run_whole(horizon).ok();
        let finished = Finished::of(edition, &sheet.encode(edition), horizon, run);
        finished.unwrap_or_else(|| panic!("it is refused: {sheet:?}"))
    }

    /// A run that finishes, with the card's title and the nodes' names.
    pub fn named(sheet: &Sheet, horizon: u32, title: &str, names: &[&str]) -> Finished {
        assert_eq!(sheet.nodes.len(), names.len(), "{title}");
        Finished {
            title: title.to_string(),
            names: names.iter().map(|name| name.to_string()).collect(),
            ..Finished::whole(sheet, horizon)
        }
    }

    /// Document 01's worked run.
    pub fn worked() -> Finished {
        let names = ["section", "scoop"];
        Finished::named(&worked_run::sheet(), worked_run::HORIZON, "worked", &names)
    }

    /// A run of so many watched inputs that nobody drives.
    pub fn inputs(count: usize, horizon: u32) -> Finished {
        let watched: Vec<u8> = (0..=u8::MAX).take(count).collect();
        let card = sheet(&vec![INPUT; count], &[], &[], &watched);
        Finished::whole(&card, horizon)
    }

    /// A run of inverters onto their own inputs with these delays: each changes at every so many ticks.
    pub fn rings(delays: &[u16], horizon: u32) -> Finished {
        let watched: Vec<u8> = (0..=u8::MAX).take(delays.len()).collect();
        let ring = |(&node, &delay): (&u8, &u16)| gate(INVERTER, [node], node, delay);
        let modules: Vec<Module> = watched.iter().zip(delays).map(ring).collect();
        let card = sheet(&vec![LOW; delays.len()], &modules, &[], &watched);
        Finished::whole(&card, horizon)
    }

    /// The next run of a stream that finishes.
    pub fn next(edition: Edition, generator: &mut Generator) -> Finished {
        loop {
            let RunInput { sheet, horizon } = generator.run_input();
            let run = |sheet: timing::Sheet| sheet.run(horizon, ROOM).ok();
            if let Some(finished) = Finished::of(edition, &sheet, horizon, run) {
                return finished;
            }
        }
    }

    pub fn run(&self) -> Run<'_> {
        Run {
            title: &self.title,
            sheet: &self.sheet,
            names: &self.names,
            watched: &self.watched,
            horizon: self.horizon,
            listing: &self.listing,
        }
    }
}

/// A name with every sort of character that names have.
fn name(node: u8) -> String {
    match node % 4 {
        0 => format!("node_{node}"),
        1 => format!("bus[{node}]"),
        2 => format!("{node}/gate.a-1"),
        _ => format!("Größe{node}"),
    }
}

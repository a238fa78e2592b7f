//! Icarus Verilog simulates the example netlists to the listings that are stored beside them.
//!
//! The .bench file is read and written as Verilog right here, with the drive and watch lines of the .net file: the
//! importer, the text form and the library have no part in it.
//!
//! Tick t is time t + 1 in Verilog: at time 0 every node has what it begins with, and at time 1 `go` wakes every
//! gate, as all gates are worked at tick 0. That both agree within a tick rests on Verilog's order there:
//!
//! - Inputs and the clock change by blocking assignments, which come first. What gates and flip-flops give is
//!   assigned without blocking, after a delay, and comes when no blocking assignment is left at that time.
//! - So a flip-flop, which the clock's rise wakes, still sees what a gate had at the tick before. In the text the
//!   first memory holds just that: its input at the latest tick at which the clock was 0. Where an input of the
//!   netlist goes to a flip-flop and changes as the clock rises, Verilog may see it early. No example has this.
//! - Both show the new value a tick after the rise: the assignment has a delay of 1, as the second memory has.
//! - A gate two of whose inputs change at one tick may be woken twice, and assigned twice for one later tick. The
//!   later assignment stays, and it has seen both changes. What is printed is what is there at the end of a tick.
//! - Verilog takes a change of the clock from X to 1 for a rise, and the text does not. The clock begins with 0.

use std::fs;
use std::path::{Path, PathBuf};
use std::process::Command;

/// The programs that must be installed.
pub const TOOLS: [&str; 2] = ["iverilog", "vvp"];

const CLOCK: &str = "clock";

/// Tick, name and value.
type Change = (u32, String, char);

/// Tick, name, value and end.
type Record = (u32, String, char, u32);

/// Compares both examples.
pub fn check() {
    for name in ["c17", "s27"] {
        let netlist = Netlist::read(&example(name, "bench"));
        let mut stored = records(&example(name, "listing"));
        let last = stored.iter().map(|&(.., end)| end).max();
        let horizon = last.expect("there are records, and the last end is the horizon");
        let net = Net::read(&example(name, "net"));
        let printed = simulate(name, &verilog(&netlist, &net, horizon));
        let mut simulated = ended(&net.changes(&printed), horizon);
        stored.sort();
        simulated.sort();
        assert_eq!(simulated, stored, "{name}");
    }
}

/// The text of a file of an example.
fn example(name: &str, ending: &str) -> String {
    let folder = Path::new(env!("CARGO_MANIFEST_DIR")).join("../../examples");
    let path = folder.join(name).with_extension(ending);
    fs::read_to_string(&path).unwrap_or_else(|error| panic!("{}: {error}", path.display()))
}

/// The records of a listing, after its first line.
fn records(listing: &str) -> Vec<Record> {
    let record = |line: &str| match line.split(' ').collect::<Vec<_>>()[..] {
        [tick, name, value, end] => (
            number(tick),
            name.to_string(),
            character(value),
            number(end),
        ),
        _ => panic!("{line} is no record"),
    };
    listing.lines().skip(1).map(record).collect()
}

fn number(digits: &str) -> u32 {
    digits.parse().expect("a number")
}

fn character(text: &str) -> char {
    text.parse().expect("one character")
}

/// A line's statement, without comment and blanks around it.
fn statements(text: &str) -> impl Iterator<Item = &str> {
    text.lines()
        .map(|line| line.split('#').next().unwrap_or_default().trim())
        .filter(|statement| !statement.is_empty())
}

/// The names of a list.
fn names(list: &str) -> Vec<String> {
    list.split(',')
        .map(|name| name.trim().to_string())
        .collect()
}

/// A .bench file.
#[derive(Default)]
struct Netlist {
    inputs: Vec<String>,
    gates: Vec<Gate>,
}

struct Gate {
    output: String,
    word: String,
    inputs: Vec<String>,
}

impl Netlist {
    fn read(bench: &str) -> Netlist {
        let mut netlist = Netlist::default();
        for statement in statements(bench) {
            let call = statement
                .strip_suffix(')')
                .and_then(|call| call.split_once('('));
            let (before, list) = call.expect("a statement ends with a list");
            match before.split_once('=') {
                Some((output, word)) => netlist.gates.push(Gate {
                    output: output.trim().to_string(),
                    word: word.trim().to_string(),
                    inputs: names(list),
                }),
                None if before == "INPUT" => netlist.inputs.extend(names(list)),
                None => assert_eq!(before, "OUTPUT"),
            }
        }
        if netlist.gates.iter().any(Gate::is_flip_flop) {
            netlist.inputs.push(CLOCK.to_string());
        }
        netlist
    }
}

impl Gate {
    fn is_flip_flop(&self) -> bool {
        self.word == "DFF"
    }

    /// The process that gives the output its value, one tick after what it looks at.
    fn process(&self) -> String {
        let output = variable(&self.output);
        let inputs: Vec<String> = self.inputs.iter().map(|input| variable(input)).collect();
        if self.is_flip_flop() {
            let clock = variable(CLOCK);
            return format!("always @(posedge {clock}) {output} <= #1 {};", inputs[0]);
        }
        let woken = inputs.join(" or ");
        let value = match self.word.as_str() {
            "NOT" => format!("~{}", inputs[0]),
            "AND" => inputs.join(" & "),
            "OR" => inputs.join(" | "),
            "NAND" => format!("~({})", inputs.join(" & ")),
            "NOR" => format!("~({})", inputs.join(" | ")),
            word => panic!("the examples have no {word}"),
        };
        format!("always @(go or {woken}) if (go) {output} <= #1 {value};")
    }
}

/// A node's name in Verilog, where none begins with a digit.
fn variable(name: &str) -> String {
    format!("n_{name}")
}

/// What a .net file adds to its netlist.
#[derive(Default)]
struct Net {
    /// Each input's changes, with their ticks, rising.
    drive: Vec<(String, Vec<(u32, char)>)>,
    watched: Vec<String>,
}

impl Net {
    fn read(text: &str) -> Net {
        let mut net = Net::default();
        for statement in statements(text) {
            match statement.split_once(' ') {
                Some(("watch", list)) => net.watched.extend(names(list)),
                Some(("drive", line)) => net.add(line),
                _ => {}
            }
        }
        net
    }

    /// Adds a drive line. A line may go on where one before it ended.
    fn add(&mut self, line: &str) {
        let (name, events) = line.split_once(": ").expect("a name and its events");
        let changes = events.split(", ").map(|event| {
            let (value, tick) = event.split_once(" at ").expect("a value at a tick");
            (number(tick), character(value))
        });
        match self.drive.iter_mut().find(|(known, _)| known == name) {
            Some((_, before)) => before.extend(changes),
            None => self.drive.push((name.to_string(), changes.collect())),
        }
    }

    /// An input that begins with its event at tick 0 and waits from change to change.
    fn input(&self, name: &str) -> String {
        let own = self.drive.iter().find(|(driven, _)| driven == name);
        let (_, changes) = own.unwrap_or_else(|| panic!("{name} is driven"));
        let [(0, first), later @ ..] = changes.as_slice() else {
            panic!("{name} has an event at tick 0");
        };
        let name = variable(name);
        let mut text = format!("reg {name} = 1'b{first}; initial begin");
        let mut now = 0;
        for (tick, value) in later {
            let time = tick + 1;
            text += &format!(" #{} {name} = 1'b{value};", time - now);
            now = time;
        }
        text + " end"
    }

    /// The changes in what the simulator prints: a time and a character for each watched node.
    fn changes(&self, printed: &str) -> Vec<Change> {
        let mut changes = Vec::new();
        let mut before = vec![None; self.watched.len()];
        for line in printed.lines() {
            let (time, values) = line.split_once(' ').expect("a time and values");
            assert_eq!(values.len(), self.watched.len(), "{line}");
            let nodes = self.watched.iter().zip(&mut before);
            for ((name, before), value) in nodes.zip(values.to_uppercase().chars()) {
                if before.replace(value) != Some(value) {
                    changes.push((number(time) - 1, name.clone(), value));
                }
            }
        }
        changes
    }
}

/// The records of the changes below the horizon. Each ends with its node's next one, or with the horizon.
fn ended(changes: &[Change], horizon: u32) -> Vec<Record> {
    let below = changes.partition_point(|&(tick, ..)| tick < horizon);
    let changes = &changes[..below];
    let end = |place: usize, name: &str| {
        let mut later = changes[place + 1..].iter();
        let next = later.find(|(_, changed, _)| changed == name);
        next.map_or(horizon, |&(tick, ..)| tick)
    };
    let places = changes.iter().enumerate();
    places
        .map(|(place, (tick, name, value))| (*tick, name.clone(), *value, end(place, name)))
        .collect()
}

/// The netlist with its inputs driven, as Verilog.
fn verilog(netlist: &Netlist, net: &Net, horizon: u32) -> String {
    let mut lines = vec![
        "`timescale 1ns/1ns".to_string(),
        "module netlist;".to_string(),
        "reg go = 0;".to_string(),
        "initial #1 go = 1;".to_string(),
    ];
    lines.extend(netlist.inputs.iter().map(|name| net.input(name)));
    for gate in &netlist.gates {
        lines.push(format!("reg {} = 1'bx;", variable(&gate.output)));
    }
    lines.extend(netlist.gates.iter().map(Gate::process));
    let watched: Vec<String> = net.watched.iter().map(|name| variable(name)).collect();
    lines.push(format!(
        "initial #1 $monitor(\"%0d {}\", $time, {});",
        "%b".repeat(watched.len()),
        watched.join(", ")
    ));
    lines.push(format!("initial #{} $finish(0);", horizon + 1));
    lines.push("endmodule\n".to_string());
    lines.join("\n")
}

/// What the simulator prints for a text.
fn simulate(name: &str, text: &str) -> String {
    let [compiler, simulator] = TOOLS;
    let folder = Path::new(env!("CARGO_TARGET_TMPDIR"));
    let source: PathBuf = folder.join(name).with_extension("v");
    let compiled = source.with_extension("vvp");
    fs::write(&source, text).expect("the folder for such files is there");
    let said = output(
        Command::new(compiler)
            .arg("-g2005")
            .arg("-o")
            .args([&compiled, &source]),
    );
    assert_eq!(said, "", "{compiler}");
    output(Command::new(simulator).arg("-n").arg(&compiled))
}

/// What a program prints, which must not complain.
fn output(command: &mut Command) -> String {
    let output = command
        .output()
        .unwrap_or_else(|error| panic!("{command:?}: {error}"));
    let complaint = String::from_utf8_lossy(&output.stderr);
    assert!(
        output.status.success() && complaint.is_empty(),
        "{command:?}: {complaint}"
    );
    String::from_utf8(output.stdout).expect("it prints text")
}

//! A sheet as Verilog. Tick t is time t + 1: at time 0 every node has the value it begins with,
//! and at time 1 every module is worked. A node of several drivers is a net, to which a variable for each
//! driver's contribution is assigned.

use generate::sheets::*;
use plain::{Module, Sheet};

use super::{first_value, is_shared, later_events, members, name};

pub fn text(sheet: &Sheet, horizon: u32) -> String {
    let mut lines = vec![
        "`timescale 1ns/1ns".to_string(),
        "module sheet;".to_string(),
        "reg go = 0;".to_string(),
        "initial #1 go = 1;".to_string(),
    ];
    for node in sheet.node_numbers() {
        lines.extend(declarations(sheet, node));
        lines.extend(events(sheet, node));
    }
    let modules = 0..sheet.modules.len();
    lines.extend(modules.map(|place| process(sheet, place)));
    lines.push(monitor(sheet));
    lines.push(format!("initial #{} $finish;", horizon + 1));
    lines.push("endmodule\n".to_string());
    lines.join("\n")
}

fn value(level: u8) -> &'static str {
    ["1'b0", "1'b1", "1'bx", "1'bz"][usize::from(level)]
}

fn declarations(sheet: &Sheet, node: u8) -> Vec<String> {
    let first = value(first_value(sheet, node));
    let node_name = name(node);
    if !is_shared(sheet, node) {
        return vec![format!("reg {node_name} = {first};")];
    }
    let mut lines = vec![format!("wire {node_name};")];
    for place in sheet.drivers(node) {
        let given = contribution(place);
        lines.push(format!("reg {given} = {first};"));
        lines.push(format!("assign {node_name} = {given};"));
    }
    lines
}

/// A name for what a module contributes.
fn contribution(place: usize) -> String {
    format!("m{place}")
}

/// Waits from event to event of an input.
fn events(sheet: &Sheet, node: u8) -> Option<String> {
    let mut now = 0;
    let mut text = "initial begin".to_string();
    for event in later_events(sheet, node) {
        let time = event.tick + 1;
        let wait = time - now;
        text += &format!(" #{wait} {} = {};", name(node), value(event.value));
        now = time;
    }
    (now > 0).then(|| text + " end")
}

/// A module as a process that is woken by its used inputs. An assignment that is delayed passes
/// every pulse.
fn process(sheet: &Sheet, place: usize) -> String {
    let module = &sheet.modules[place];
    let used = module
        .used_inputs()
        .map(|node| format!(" or {}", name(node)));
    let woken: String = used.collect();
    let output = match is_shared(sheet, module.output) {
        true => contribution(place),
        false => name(module.output),
    };
    let assigned = match module.delay {
        0 => format!("{output} = {}", result(module)),
        delay => format!("{output} <= #{delay} {}", result(module)),
    };
    let when = condition(module);
    format!("always @(go{woken}) if (go{when}) {assigned};")
}

fn result(module: &Module) -> String {
    let [a, b, c] = [module.first, module.second, module.third].map(name);
    match module.kind {
        CONSTANT => value(module.parameter).to_string(),
        // Twice inverted, so that z becomes x.
        BUFFER => format!("~(~{a})"),
        INVERTER => format!("~{a}"),
        AND => format!("{a} & {b}"),
        OR => format!("{a} | {b}"),
        XOR => format!("{a} ^ {b}"),
        NAND => format!("~({a} & {b})"),
        NOR => format!("~({a} | {b})"),
        // A condition of x or z gives x where the two results differ, and ~ never gives z.
        CLOCKED_INVERTER => format!("{b} ? ~{a} : 1'bz"),
        AND_3 => format!("{a} & {b} & {c}"),
        OR_3 => format!("{a} | {b} | {c}"),
        XOR_3 => format!("{a} ^ {b} ^ {c}"),
        NAND_3 => format!("~({a} & {b} & {c})"),
        NOR_3 => format!("~({a} | {b} | {c})"),
        // So it is with what a multiplexer chooses, and a chosen z becomes x.
        MULTIPLEXER => format!("~(~({c} ? {b} : {a}))"),
        _ => a,
    }
}

/// When a memory takes its first input.
fn condition(module: &Module) -> String {
    if module.kind != MEMORY {
        return String::new();
    }
    let control = name(module.second);
    let mut cases = members(module.parameter, |level| {
        format!("{control} === {}", value(level))
    });
    cases.push("0".to_string());
    format!(" && ({})", cases.join(" || "))
}

/// Prints the watched nodes at the end of each time at which one changes.
fn monitor(sheet: &Sheet) -> String {
    let format = "%b".repeat(sheet.watched.len());
    let watched = sheet
        .watched
        .iter()
        .map(|&node| format!(", {}", name(node)));
    let watched: String = watched.collect();
    format!("initial #1 $monitor(\"%0d {format}\", $time{watched});")
}

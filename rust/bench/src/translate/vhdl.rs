//! A sheet as VHDL. Tick t is time t. Each module is a driver of its own, which begins with the node's
//! initial value.

use generate::sheets::*;
use plain::{Module, Sheet};

use super::{first_value, is_shared, later_events, members, name};

pub fn text(sheet: &Sheet, horizon: u32) -> String {
    let mut lines = vec![
        "library ieee; use ieee.std_logic_1164.all; use std.textio.all;".to_string(),
        "entity sheet is end sheet;".to_string(),
        "architecture run of sheet is".to_string(),
    ];
    for node in sheet.node_numbers() {
        let first = value(first_value(sheet, node));
        let kind = match is_shared(sheet, node) {
            true => "std_logic",
            false => "std_ulogic",
        };
        lines.push(format!("signal {} : {kind} := {first};", name(node)));
    }
    lines.push("begin".to_string());
    lines.extend(sheet.node_numbers().filter_map(|node| events(sheet, node)));
    lines.extend(sheet.modules.iter().map(statement));
    lines.push(monitor(sheet));
    lines.push(end(horizon));
    lines.push("end run;\n".to_string());
    lines.join("\n")
}

fn value(level: u8) -> &'static str {
    ["'0'", "'1'", "'X'", "'Z'"][usize::from(level)]
}

/// All later events of an input as one waveform.
fn events(sheet: &Sheet, node: u8) -> Option<String> {
    let later = later_events(sheet, node).into_iter();
    let later = later.map(|event| format!("{} after {} ns", value(event.value), event.tick));
    let waveform: Vec<String> = later.collect();
    let has_events = !waveform.is_empty();
    has_events.then(|| format!("{} <= transport {};", name(node), waveform.join(", ")))
}

fn statement(module: &Module) -> String {
    let [a, b, c] = [module.first, module.second, module.third].map(name);
    let output = name(module.output);
    let after = after(module);
    match module.kind {
        CLOCKED_INVERTER => {
            let by_clock = format!("not {a}{after} when {b} = '1' else 'Z'{after} when {b} = '0'");
            format!("{output} <= transport {by_clock} else 'X'{after};")
        }
        // Twice inverted, so that 'Z' becomes 'X'. Both are 'X' where they are equal and not known.
        MULTIPLEXER => {
            let [first, second] = [&a, &b].map(|node| format!("not (not {node}){after}"));
            let chosen =
                format!("{second} when {c} = '1' else {first} when {c} = '0' or {a} = {b}");
            format!("{output} <= transport {chosen} else 'X'{after};")
        }
        MEMORY => memory_statement(module),
        _ => format!("{output} <= transport {}{after};", result(module)),
    }
}

/// Without a delay a change takes place within the tick.
fn after(module: &Module) -> String {
    match module.delay {
        0 => String::new(),
        delay => format!(" after {delay} ns"),
    }
}

fn result(module: &Module) -> String {
    let [a, b, c] = [module.first, module.second, module.third].map(name);
    match module.kind {
        CONSTANT => value(module.parameter).to_string(),
        // Twice inverted, so that 'Z' becomes 'X'.
        BUFFER => format!("not (not {a})"),
        INVERTER => format!("not {a}"),
        AND => format!("{a} and {b}"),
        OR => format!("{a} or {b}"),
        XOR => format!("{a} xor {b}"),
        NAND => format!("{a} nand {b}"),
        NOR => format!("{a} nor {b}"),
        AND_3 => format!("{a} and {b} and {c}"),
        OR_3 => format!("{a} or {b} or {c}"),
        XOR_3 => format!("{a} xor {b} xor {c}"),
        NAND_3 => format!("not ({a} and {b} and {c})"),
        _ => format!("not ({a} or {b} or {c})"),
    }
}

/// A memory with a delay looks at the end of a tick; one without can only look when it is woken.
fn memory_statement(module: &Module) -> String {
    let (data, control) = (name(module.first), name(module.second));
    let mut cases = members(module.parameter, |level| {
        format!("{control} = {}", value(level))
    });
    cases.push("false".to_string());
    let output = name(module.output);
    let after = after(module);
    let taken = format!("{output} <= transport {data}{after};");
    let body = format!("if {} then {taken} end if;", cases.join(" or "));
    let inputs = format!("{data}, {control}");
    match module.delay {
        0 => format!("process ({inputs}) begin {body} end process;"),
        _ => at_the_end_of_ticks("", &body, &inputs),
    }
}

/// Something done at the end of tick 0 and of each later tick at which a node has changed.
fn at_the_end_of_ticks(variables: &str, body: &str, nodes: &str) -> String {
    format!(
        "postponed process {variables}begin wait for 0 ns; loop {body} wait on {nodes}; end loop; \
         end process;"
    )
}

/// Prints the watched nodes.
fn monitor(sheet: &Sheet) -> String {
    let watched: Vec<String> = sheet.watched.iter().copied().map(name).collect();
    let write = |node: &String| format!("write(l, std_ulogic'image({node})(2)); ");
    let writes: String = watched.iter().map(write).collect();
    let body = format!("write(l, now / 1 ns); write(l, ' '); {writes}writeline(output, l);");
    at_the_end_of_ticks("variable l : line; ", &body, &watched.join(", "))
}

/// Ends the simulation, which a ring would keep alive.
fn end(horizon: u32) -> String {
    format!("process begin wait for {horizon} ns; std.env.finish; end process;")
}

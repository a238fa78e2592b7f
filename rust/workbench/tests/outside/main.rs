//! What other programs make of the workbench's files, where they are installed. A check whose programs are
//! missing is left out, and this says so and does not count it.

mod icarus;
mod terminal;
mod vcd;

use std::env;
use std::panic;
use std::process::ExitCode;

/// A check, and the programs that it starts.
struct Check {
    name: &'static str,
    tools: &'static [&'static str],
    check: fn(),
}

const CHECKS: [Check; 3] = [
    Check {
        name: "dumps_through_gtkwave",
        tools: &vcd::TOOLS,
        check: vcd::check,
    },
    Check {
        name: "netlists_in_icarus_verilog",
        tools: &icarus::TOOLS,
        check: icarus::check,
    },
    Check {
        name: "progress_on_a_terminal",
        tools: &terminal::TOOLS,
        check: terminal::check,
    },
];

fn is_installed(tool: &str) -> bool {
    let folders = env::var_os("PATH").unwrap_or_default();
    env::split_paths(&folders).any(|folder| folder.join(tool).is_file())
}

/// Whether the command line asks for a check: by a part of its name, or for all.
fn is_asked_for(name: &str) -> bool {
    let mut asked = env::args()
        .skip(1)
        .filter(|word| !word.starts_with('-'))
        .peekable();
    asked.peek().is_none() || asked.any(|part| name.contains(&part))
}

fn main() -> ExitCode {
    let [mut passed, mut failed] = [0; 2];
    for Check { name, tools, check } in CHECKS {
        if !is_asked_for(name) {
            continue;
        }
        if let Some(missing) = tools.iter().find(|tool| !is_installed(tool)) {
            println!("left out: {name}, since {missing} is not installed");
            continue;
        }
        match panic::catch_unwind(check) {
            Ok(()) => {
                println!("test {name} ... ok");
                passed += 1;
            }
            Err(_) => {
                println!("test {name} ... FAILED");
                failed += 1;
            }
        }
    }
    let result = if failed == 0 { "ok" } else { "FAILED" };
    println!("\ntest result: {result}. {passed} passed; {failed} failed; 0 ignored; 0 measured; 0 filtered out");
    ExitCode::from(u8::from(failed > 0))
}

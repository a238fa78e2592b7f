//! What the translations say, word for word. That Icarus Verilog and GHDL list the same as the
//! library with them is seen by the benchmark itself, before it times anything.

use bench::translate::{verilog, vhdl};
use generate::sheets::*;
use plain::{worked_run, Module, HIGH, INPUT, LOW, NONE};

const WORKED_VERILOG: &str = r#"`timescale 1ns/1ns
module sheet;
reg go = 0;
initial #1 go = 1;
reg n0 = 1'b0;
initial begin #6 n0 = 1'b1; end
reg n1 = 1'bx;
always @(go or n0 or n1) if (go) n1 <= #3 ~(n0 & n1);
initial #1 $monitor("%0d %b%b", $time, n0, n1);
initial #13 $finish;
endmodule
"#;

const WORKED_VHDL: &str = "library ieee; use ieee.std_logic_1164.all; use std.textio.all;
entity sheet is end sheet;
architecture run of sheet is
signal n0 : std_ulogic := '0';
signal n1 : std_ulogic := 'X';
begin
n0 <= transport '1' after 5 ns;
n1 <= transport n0 nand n1 after 3 ns;
postponed process variable l : line; begin wait for 0 ns; loop write(l, now / 1 ns); \
write(l, ' '); write(l, std_ulogic'image(n0)(2)); write(l, std_ulogic'image(n1)(2)); \
writeline(output, l); wait on n0, n1; end loop; end process;
process begin wait for 12 ns; std.env.finish; end process;
end run;
";

#[test]
fn the_worked_run() {
    let sheet = worked_run::sheet();
    assert_eq!(verilog::text(&sheet, worked_run::HORIZON), WORKED_VERILOG);
    assert_eq!(vhdl::text(&sheet, worked_run::HORIZON), WORKED_VHDL);
}

/// A bus of two clocked inverters, and a buffer that reads it.
#[test]
fn several_drivers() {
    let modules = [
        gate(CLOCKED_INVERTER, [0, 1], 2, 0),
        gate(BUFFER, [2], 3, 1),
        gate(CLOCKED_INVERTER, [1, 0], 2, 4),
    ];
    let drive = [(0, 0, HIGH), (0, 1, LOW)];
    let sheet = sheet(&[INPUT, INPUT, NONE, LOW], &modules, &drive, &[2]);
    let in_verilog = verilog::text(&sheet, 10);
    let lines: Vec<&str> = in_verilog.lines().skip(6).take(9).collect();
    assert_eq!(
        lines,
        [
            "wire n2;",
            "reg m0 = 1'bz;",
            "assign n2 = m0;",
            "reg m2 = 1'bz;",
            "assign n2 = m2;",
            "reg n3 = 1'b0;",
            "always @(go or n0 or n1) if (go) m0 = n1 ? ~n0 : 1'bz;",
            "always @(go or n2) if (go) n3 <= #1 ~(~n2);",
            "always @(go or n1 or n0) if (go) m2 <= #4 n0 ? ~n1 : 1'bz;"
        ]
    );
    let in_vhdl = vhdl::text(&sheet, 10);
    let lines: Vec<&str> = in_vhdl.lines().skip(5).take(6).collect();
    assert_eq!(
        lines,
        [
            "signal n2 : std_logic := 'Z';",
            "signal n3 : std_ulogic := '0';",
            "begin",
            "n2 <= transport not n0 when n1 = '1' else 'Z' when n1 = '0' else 'X';",
            "n3 <= transport not (not n2) after 1 ns;",
            "n2 <= transport not n1 after 4 ns when n0 = '1' else 'Z' after 4 ns when n0 = '0' else 'X' \
             after 4 ns;"
        ]
    );
}

/// Inputs that are X at first: one that begins at tick 3, and one that never does.
#[test]
fn inputs_that_start_unknown() {
    let sheet = sheet(&[INPUT, INPUT], &[], &[(3, 0, HIGH)], &[0, 1]);
    let in_verilog = verilog::text(&sheet, 10);
    let lines: Vec<&str> = in_verilog.lines().skip(4).take(3).collect();
    assert_eq!(
        lines,
        [
            "reg n0 = 1'bx;",
            "initial begin #4 n0 = 1'b1; end",
            "reg n1 = 1'bx;"
        ]
    );
    let in_vhdl = vhdl::text(&sheet, 10);
    let lines: Vec<&str> = in_vhdl.lines().skip(3).take(4).collect();
    assert_eq!(
        lines,
        [
            "signal n0 : std_ulogic := 'X';",
            "signal n1 : std_ulogic := 'X';",
            "begin",
            "n0 <= transport '1' after 3 ns;"
        ]
    );
}

/// Asserts what both say of a module from inputs 0 and 1 to node 2.
fn says(module: Module, in_verilog: &str, in_vhdl: &str) {
    let nodes = [INPUT, INPUT, LOW];
    let drive = [(0, 0, HIGH), (0, 1, NONE)];
    let sheet = sheet(&nodes, &[module], &drive, &[2]);
    for (text, line) in [
        (verilog::text(&sheet, 10), in_verilog),
        (vhdl::text(&sheet, 10), in_vhdl),
    ] {
        assert!(text.lines().any(|said| said == line), "no {line} in {text}");
    }
}

#[test]
fn kinds_with_one_input_or_none() {
    says(
        constant(NONE, 2, 4),
        "always @(go) if (go) n2 <= #4 1'bz;",
        "n2 <= transport 'Z' after 4 ns;",
    );
    says(
        gate(BUFFER, [1, 0], 2, 1),
        "always @(go or n1) if (go) n2 <= #1 ~(~n1);",
        "n2 <= transport not (not n1) after 1 ns;",
    );
    says(
        gate(INVERTER, [1, 0], 2, 10_000),
        "always @(go or n1) if (go) n2 <= #10000 ~n1;",
        "n2 <= transport not n1 after 10000 ns;",
    );
}

#[test]
fn kinds_with_two_inputs() {
    let kinds = [
        (AND, "n0 & n1", "n0 and n1"),
        (OR, "n0 | n1", "n0 or n1"),
        (XOR, "n0 ^ n1", "n0 xor n1"),
        (NAND, "~(n0 & n1)", "n0 nand n1"),
        (NOR, "~(n0 | n1)", "n0 nor n1"),
    ];
    for (kind, in_verilog, in_vhdl) in kinds {
        says(
            gate(kind, [0, 1], 2, 3),
            &format!("always @(go or n0 or n1) if (go) n2 <= #3 {in_verilog};"),
            &format!("n2 <= transport {in_vhdl} after 3 ns;"),
        );
    }
    says(
        gate(CLOCKED_INVERTER, [0, 1], 2, 7),
        "always @(go or n0 or n1) if (go) n2 <= #7 n1 ? ~n0 : 1'bz;",
        "n2 <= transport not n0 after 7 ns when n1 = '1' else 'Z' after 7 ns when n1 = '0' \
         else 'X' after 7 ns;",
    );
}

/// The third input is the output itself.
#[test]
fn kinds_with_three_inputs() {
    let kinds = [
        (AND_3, "n0 & n1 & n2", "n0 and n1 and n2"),
        (OR_3, "n0 | n1 | n2", "n0 or n1 or n2"),
        (XOR_3, "n0 ^ n1 ^ n2", "n0 xor n1 xor n2"),
        (NAND_3, "~(n0 & n1 & n2)", "not (n0 and n1 and n2)"),
        (NOR_3, "~(n0 | n1 | n2)", "not (n0 or n1 or n2)"),
    ];
    for (kind, in_verilog, in_vhdl) in kinds {
        says(
            gate(kind, [0, 1, 2], 2, 3),
            &format!("always @(go or n0 or n1 or n2) if (go) n2 <= #3 {in_verilog};"),
            &format!("n2 <= transport {in_vhdl} after 3 ns;"),
        );
    }
    says(
        gate(MULTIPLEXER, [0, 1, 2], 2, 7),
        "always @(go or n0 or n1 or n2) if (go) n2 <= #7 ~(~(n2 ? n1 : n0));",
        "n2 <= transport not (not n1) after 7 ns when n2 = '1' else not (not n0) after 7 ns when \
         n2 = '0' or n0 = n1 else 'X' after 7 ns;",
    );
}

#[test]
fn without_delay() {
    says(
        gate(OR, [0, 1], 2, 0),
        "always @(go or n0 or n1) if (go) n2 = n0 | n1;",
        "n2 <= transport n0 or n1;",
    );
}

#[test]
fn memories() {
    says(
        memory(0b0110, [0, 1], 2, 8),
        "always @(go or n0 or n1) if (go && (n1 === 1'b1 || n1 === 1'bx || 0)) n2 <= #8 n0;",
        "postponed process begin wait for 0 ns; loop if n1 = '1' or n1 = 'X' or false then \
         n2 <= transport n0 after 8 ns; end if; wait on n0, n1; end loop; end process;",
    );
    says(
        memory(0, [0, 1], 2, 0),
        "always @(go or n0 or n1) if (go && (0)) n2 = n0;",
        "process (n0, n1) begin if false then n2 <= transport n0; end if; end process;",
    );
}

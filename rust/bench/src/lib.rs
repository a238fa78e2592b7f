//! The proved library timed beside the same algorithm in safe Rust, the plain simulator and, where
//! they are installed, Icarus Verilog and GHDL.

#![forbid(unsafe_code)]

pub mod agree;
mod buses;
pub mod describe;
pub mod machine;
pub mod outside;
pub mod same;
pub mod table;
pub mod timed;
pub mod translate;
pub mod workload;

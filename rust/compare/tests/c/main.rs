//! The library from C: its header, and programs in C over it.

mod archive;
mod calls;
mod cloned;
mod compiled;
mod definitions;
mod ended;
mod header;
mod makefile;
mod page;
mod run_sheet;
mod stack;
mod worked_run;

//! The command as a process: what it prints, writes and ends with.

mod answers;
mod assemble_show;
mod help;
mod places;
mod room;
mod several;
mod support;
mod writing;
mod wrong_use;

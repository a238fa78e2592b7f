//! ISCAS .bench netlists as texts: what each statement becomes, what it does, and every mistake.

mod examples;
mod flip_flops;
mod gates;
mod imported;
mod large;
mod layout;
mod limits;
mod mistakes;
mod names;
mod ran;

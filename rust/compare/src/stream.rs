//! Which stream of generated inputs is taken, and how much of it: the environment can ask for
//! another and for a longer one.

use std::env;

pub fn seed() -> u64 {
    setting("TIMING_SEED", 1)
}

/// How many inputs are taken, if the environment does not say.
pub fn count(default: u64) -> u64 {
    setting("TIMING_COUNT", default)
}

fn setting(name: &str, default: u64) -> u64 {
    match env::var(name) {
        Ok(text) => text.parse().unwrap_or_else(|_| panic!("{name}={text}")),
        Err(_) => default,
    }
}

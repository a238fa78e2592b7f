//! How often numbered answers were met.

/// Asserts that every number was met at least so often, and that those of `never` were not at all.
pub fn assert_met(met: &[u64], least: u64, never: &[usize], whence: &str) {
    for (number, &times) in met.iter().enumerate() {
        let is_right = match never.contains(&number) {
            true => times == 0,
            false => times >= least,
        };
        assert!(is_right, "{whence}, {number}: {met:?}");
    }
}

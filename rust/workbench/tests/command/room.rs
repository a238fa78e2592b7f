//! Listings of any length: the room doubles until it is enough, or there is no memory.

use crate::support::Folder;

/// A node that changes at every tick.
const RING: &str = "timing-1\nring = inverter(ring) delay 1 initial 0\nwatch ring\n";

#[test]
fn a_long_listing() {
    let folder = Folder::new("a_long_listing");
    folder.write("ring.net", RING);
    for horizon in [5_999, 6_000, 6_001, 12_000, 12_001, 300_000] {
        let ended = folder.timing(&["run", "ring.net", "--horizon", &horizon.to_string()]);
        assert_eq!(ended.status, 0, "{}", ended.err);
        let mut lines = ended.out.lines();
        assert_eq!(
            lines.next(),
            Some(format!("finished, with a count of {horizon}").as_str())
        );
        assert_eq!(lines.clone().count(), horizon);
        let last = horizon - 1;
        assert_eq!(
            lines.last(),
            Some(format!("{last} ring {} {horizon}", last % 2).as_str())
        );
    }
    let pulses = folder.timing(&["pulses", "ring.net", "--horizon", "50000", "--width", "2"]);
    // The first value and the last are no pulses.
    assert!(pulses
        .out
        .starts_with("finished, with a count of 49998\n1 ring 1\n2 ring 1\n"));
    assert_eq!(pulses.out.lines().count(), 49_999);
}

/// 256 rings fill more than a gigabyte, which a process of 200 megabytes has not.
#[test]
fn no_memory() {
    let folder = Folder::new("no_memory");
    let mut text = "timing-1\n".to_string();
    for ring in 0..256 {
        text += &format!("r{ring} = inverter(r{ring}) delay 1 initial 0\nwatch r{ring}\n");
    }
    folder.write("rings.net", text);
    let ended = folder.shell("ulimit -v 200000; $timing run rings.net --horizon 1000000");
    assert_eq!((ended.status, ended.out.as_str()), (2, ""));
    let told = ended
        .err
        .strip_prefix("timing: rings.net: there is no memory for ");
    let bytes = told.and_then(|rest| rest.strip_suffix(" bytes\n"));
    let bytes: u64 = bytes
        .unwrap_or_else(|| panic!("{}", ended.err))
        .parse()
        .expect("it is a number");
    assert!((60_000_000..=2_560_000_000).contains(&bytes), "{bytes}");
    let short = folder.shell("ulimit -v 200000; $timing run rings.net --horizon 1000");
    assert_eq!((short.status, short.out.lines().count()), (0, 256_001));
}

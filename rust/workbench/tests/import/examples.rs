//! The example netlists, their texts with a drive, and their listings.

use std::fs;
use std::path::Path;

use timing::Level;

use crate::imported::text;
use crate::ran::{card, listing};

/// Each example's name and the horizon of its listing.
pub const EXAMPLES: [(&str, u32); 2] = [("c17", 200), ("s27", 400)];

/// A file of an example.
pub fn file(name: &str, ending: &str) -> String {
    let folder = Path::new(env!("CARGO_MANIFEST_DIR")).join("../../examples");
    let path = folder.join(name).with_extension(ending);
    fs::read_to_string(&path).unwrap_or_else(|error| panic!("{}: {error}", path.display()))
}

/// A text begins with what the import gives, and says to which horizon it is run.
#[test]
fn texts() {
    for (name, horizon) in EXAMPLES {
        let net = file(name, "net");
        let imported = text(&file(name, "bench")) + "\n#";
        assert!(net.starts_with(&imported), "{name}.net begins otherwise");
        let comment = format!("# Run it to horizon {horizon}.\n");
        assert!(net.contains(&comment), "{name}.net says another horizon");
    }
}

/// What the library lists is what is stored.
#[test]
fn listings() {
    for (name, horizon) in EXAMPLES {
        let card = card(&file(name, "net"));
        let records = listing(&card, horizon);
        let count = u32::try_from(records.len()).expect("there are few");
        let mut listed = timing::sentence([0, 0, count]) + "\n";
        for record in records {
            let node = card.name(record.node);
            listed += &format!("{} {node} {} {}\n", record.tick, record.value, record.end);
        }
        assert_eq!(listed, file(name, "listing"), "{name}");
    }
}

/// An example exercises what it shows: each of its watched nodes is low at some tick and high at another.
#[test]
fn every_watched_node_changes() {
    for (name, horizon) in EXAMPLES {
        let card = card(&file(name, "net"));
        let records = listing(&card, horizon);
        for &node in &card.contents.watched {
            for value in [Level::Low, Level::High] {
                let has = |record: &timing::Record| (record.node, record.value) == (node, value);
                let shown = card.name(node);
                assert!(records.iter().any(has), "{name}: {shown} is never {value}");
            }
        }
    }
}

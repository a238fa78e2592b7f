//! Document 02, W-209: what two contributions come to.

use generate::every::JOINED;
use plain::{join, HIGH, LOW, NONE, UNKNOWN};

const VALUES: [u8; 4] = [LOW, HIGH, UNKNOWN, NONE];

#[test]
fn as_a_table() {
    let joined = VALUES.map(|one| VALUES.map(|other| join(one, other)));
    let expected = [[0, 2, 2, 0], [2, 1, 2, 1], [2, 2, 2, 2], [0, 1, 2, 3]];
    assert_eq!(joined, expected);
    assert_eq!(JOINED, expected);
}

#[test]
fn z_yields_to_the_other() {
    for value in VALUES {
        assert_eq!(join(NONE, value), value);
        assert_eq!(join(value, NONE), value);
    }
}

#[test]
fn equal_values_stay_and_anything_else_is_x() {
    for one in VALUES {
        for other in VALUES {
            let expected = match (one, other) {
                (NONE, value) | (value, NONE) => value,
                _ if one == other => one,
                _ => UNKNOWN,
            };
            assert_eq!(join(one, other), expected, "{one} and {other}");
        }
        assert_eq!(join(one, one), one);
    }
}

#[test]
fn in_any_order_and_grouping() {
    for one in VALUES {
        for other in VALUES {
            assert_eq!(join(one, other), join(other, one), "{one}, {other}");
            for third in VALUES {
                let first = join(join(one, other), third);
                let last = join(one, join(other, third));
                assert_eq!(first, last, "{one}, {other}, {third}");
            }
        }
    }
}

//! There and back gives the same bytes, and the other edition's checks say of the converted sheet what
//! its own say of the given one.

use compare::{check, check_strict, converted, count, hex, seed};
use generate::drivers::has_several_drivers;
use generate::Generator;
use plain::{read, Edition};

fn generated(from: Edition) {
    let seed = seed();
    let mut generator = Generator::of(from, seed);
    let [mut begun, mut begun_late, mut several_drivers] = [0u64; 3];
    for place in 0..count(100_000) {
        let sheet = generator.to_convert();
        let Ok(there) = converted(from, &sheet) else {
            continue;
        };
        let to = from.other();
        let whence = format!("{from:?}, seed {seed}, sheet {place}: {}", hex(&sheet));
        assert_eq!(converted(to, &there).as_ref(), Ok(&sheet), "{whence}");
        assert_eq!(check(to, &there), [0, 0, 0], "{whence}");
        let strict = check_strict(from, &sheet);
        assert_eq!(check_strict(to, &there), strict, "{whence}");
        match strict {
            [0, 0, 0] => begun += 1,
            [15, _, 0] => begun_late += 1,
            answer => panic!("{answer:?}, {whence}"),
        }
        let accepted = read(from, &sheet);
        several_drivers += u64::from(accepted.is_ok_and(|sheet| has_several_drivers(&sheet)));
    }
    println!("{from:?}: {begun} sheets whose inputs all begin at tick 0, {begun_late} others");
    println!("{from:?}: {several_drivers} sheets with several drivers a node");
    assert!(begun >= 10_000 && begun_late >= 5_000, "seed {seed}");
    assert!(several_drivers >= 5_000, "seed {seed}");
}

#[test]
fn from_the_first_edition() {
    generated(Edition::First);
}

#[test]
fn from_the_second_edition() {
    generated(Edition::Second);
}

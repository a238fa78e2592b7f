//! The same algorithm in safe Rust gives the plain simulator's answers and bytes.

use bench::same;
use generate::drivers::has_several_drivers;
use generate::Generator;
use plain::{read, Edition};

fn generated(edition: Edition) {
    let seed = 40;
    let mut generator = Generator::of(edition, seed);
    let mut met = [0; 21];
    let mut several_drivers = 0;
    for place in 0..10_000 {
        let input = generator.run_input();
        let mut same = vec![0xA5; generator.buffer_length()];
        let mut plain = same.clone();
        let answer = same::run(edition, &input.sheet, input.horizon, &mut same);
        let expected = plain::run(edition, &input.sheet, input.horizon, &mut plain).triple();
        assert_eq!(answer, expected, "{edition:?}, seed {seed}, input {place}");
        assert!(same == plain, "{edition:?}, seed {seed}, input {place}");
        met[answer[0] as usize] += 1;
        let accepted = read(edition, &input.sheet);
        several_drivers += u32::from(accepted.is_ok_and(|sheet| has_several_drivers(&sheet)));
    }
    println!("{edition:?}: answers by number, 0 for finished: {met:?}");
    assert!(
        met[0] >= 5_000 && met[19] >= 500 && met[20] >= 20,
        "{met:?}"
    );
    assert!(several_drivers >= 1_000, "{several_drivers}");
}

#[test]
fn generated_runs() {
    Edition::ALL.into_iter().for_each(generated);
}

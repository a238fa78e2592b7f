//! Crowded runs come to the limit of pending changes and past it.

use generate::{Generator, RunInput};
use plain::{read, Edition};

fn at_the_limit_and_past_it(edition: Edition, next: fn(&mut Generator) -> RunInput) {
    let mut generator = Generator::of(edition, 30);
    let (mut at_limit, mut one_past, mut below, mut past) = (0, 0, 0, 0);
    for _ in 0..1_000 {
        let input = next(&mut generator);
        let sheet = read(edition, &input.sheet).expect("crowded sheets are accepted");
        let timelines = plain::timelines(&sheet, input.horizon);
        let busiest = plain::pending(&sheet, &timelines).into_iter().max();
        match busiest.expect("there is a tick") {
            4_096 => at_limit += 1,
            4_097 => one_past += 1,
            ..4_096 => below += 1,
            _ => past += 1,
        }
    }
    let counts = [at_limit, one_past, below, past];
    println!("at the limit, one past it, below, further past: {counts:?}");
    assert!(counts.iter().all(|&runs| runs >= 50), "{counts:?}");
}

#[test]
fn exactly_at_the_limit_and_one_past_it() {
    for edition in Edition::ALL {
        at_the_limit_and_past_it(edition, Generator::crowded);
        at_the_limit_and_past_it(edition, Generator::crowded_bus);
    }
}

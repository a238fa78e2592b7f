//! Lively sheets and networks of gates are accepted, and much happens in them.

use generate::sheets::*;
use generate::{Generator, Size, Start};
use plain::{check, Answer, Edition, Sheet};

/// The changes of all nodes below the horizon.
fn changes(edition: Edition, sheet: &Sheet, horizon: u32) -> usize {
    let answer = check(edition, &sheet.encode(edition));
    assert_eq!(answer, Answer::Ran { count: 0 }, "{sheet:?}");
    let of_node = |cells: &Vec<u8>| cells.windows(2).filter(|pair| pair[0] != pair[1]).count();
    plain::cells(sheet, horizon).iter().map(of_node).sum()
}

#[test]
fn lively_sheets_change_more_often() {
    for edition in Edition::ALL {
        let mut generator = Generator::of(edition, 32);
        let mut total = [0; 2];
        for _ in 0..2_000 {
            total[0] += changes(edition, &generator.valid(Size::Small), 60);
            total[1] += changes(edition, &generator.lively(Size::Small), 60);
        }
        println!("{edition:?}: changes in valid and in lively sheets: {total:?}");
        assert!(total[1] > 3 * total[0] / 2, "{total:?}");
    }
}

#[test]
fn gates_have_their_number_and_delays() {
    for (edition, kinds) in [
        (Edition::First, AND..=NOR),
        (Edition::Second, AND_3..=MULTIPLEXER),
    ] {
        let mut generator = Generator::of(edition, 33);
        for gates in [1, 20, 255] {
            let sheet = generator.gates(gates, 100, Start::AtOnce);
            assert_eq!((sheet.nodes.len(), sheet.modules.len()), (gates + 1, gates));
            for module in &sheet.modules {
                assert!((1..=100).contains(&module.delay));
                assert!(kinds.contains(&module.kind));
            }
            assert!(gates < 255 || changes(edition, &sheet, 1_000) > 1_000);
        }
    }
}

//! The plain simulator gives the answers worked out by hand.

use std::collections::BTreeSet;

use generate::by_hand;
use plain::Edition;

#[test]
fn checking_answers_as_worked_out() {
    for case in by_hand::cases() {
        let answer = plain::check(case.edition, &case.sheet).triple();
        assert_eq!(answer, case.answer, "{}", case.name);
        let strict = plain::check_strict(case.edition, &case.sheet).triple();
        assert_eq!(strict, case.strict, "strictly, {}", case.name);
    }
}

#[test]
fn every_refusal_of_reading_has_a_case() {
    for edition in Edition::ALL {
        let mut cases = by_hand::cases();
        cases.retain(|case| case.edition == edition);
        let strict: BTreeSet<u32> = cases.iter().map(|case| case.strict[0]).collect();
        let mut expected: BTreeSet<u32> = [0].into_iter().chain(2..=18).collect();
        expected.remove(&9);
        assert_eq!(strict, expected, "{edition:?}");
        let numbers: BTreeSet<u32> = cases.iter().map(|case| case.answer[0]).collect();
        expected.remove(&15);
        assert_eq!(numbers, expected, "{edition:?}");
    }
}

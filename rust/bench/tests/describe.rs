//! The line of the sentences' times.

#[test]
fn both_are_timed() {
    let line = bench::describe::timed();
    let times = line.split(' ').filter_map(|word| word.parse::<u32>().ok());
    let times: Vec<u32> = times.collect();
    assert_eq!(times.len(), 2, "{line}");
    assert!(times.iter().all(|&time| time > 0), "{line}");
}

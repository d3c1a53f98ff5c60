//! Table 9 of SRC Report 150, number by number: twice the strays of the loads of 1,024 slots.

use reference::stray::stray;

/// A line for each a from 0 to 512 in steps of 16: a, and the numbers for a + 0 to a + 15.
const TABLE: &str = include_str!("table9.txt");

/// So many parts of 1/1,024 to the nearest hundredth, a half upwards, as the report rounds.
fn in_hundredths(parts: u64) -> String {
    let hundredths = (200 * parts + 1_024) / 2_048;
    format!("{}.{:02}", hundredths / 100, hundredths % 100)
}

#[test]
fn twice_the_stray() {
    let mut numbers = 0;
    for (a, line) in (0..).step_by(16).zip(TABLE.lines()) {
        let mut words = line.split(' ');
        assert_eq!(words.next(), Some(a.to_string().as_str()));
        for (b, word) in (0..).zip(words) {
            assert_eq!(
                word,
                in_hundredths(2 * stray(10, a + b)),
                "a = {a}, b = {b}"
            );
            numbers += 1;
        }
    }
    assert_eq!(numbers, 528);
}

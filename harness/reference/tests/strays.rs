//! The strays of loads, held to their definition.

mod balanced;

use reference::stray::{earliest, stray};
use reference::wire::deviation;

/// The cells of the first slots, for each number of them from 0 on.
fn running(frame: &[u64]) -> Vec<u64> {
    (0..=frame.len())
        .map(|slots| frame[..slots].iter().sum())
        .collect()
}

/// Every size and load that is small enough to look at all its balanced frames, some with several cells in a slot.
fn small() -> impl Iterator<Item = (u32, u64)> {
    (0..=4).flat_map(|k| (0..=if k < 4 { 3 << k } else { 16 }).map(move |m| (k, m)))
}

#[test]
fn the_earliest_of_all_balanced_frames() {
    for (k, m) in small() {
        let frames: Vec<_> = balanced::frames(k, m)
            .iter()
            .map(|frame| running(frame))
            .collect();
        for slots in 0..=1_usize << k {
            let [t, others] = [slots as u64, (1 << k) - slots as u64];
            let cells = || frames.iter().map(|cells| cells[slots]);
            assert_eq!(cells().max(), Some(earliest(k, m, t)), "{k} {m} {t}");
            let least = m - earliest(k, m, others);
            assert_eq!(cells().min(), Some(least), "{k} {m} {t}");
        }
    }
}

#[test]
fn the_furthest_of_all_balanced_frames_by_load() {
    for (k, m) in small() {
        let lead = |slots, cells| (cells << k) as i64 - slots * m as i64;
        let mut leads = Vec::new();
        for frame in balanced::frames(k, m) {
            let cells = (0..).zip(running(&frame));
            leads.extend(cells.map(|(slots, cells)| lead(slots, cells)));
        }
        let stray = stray(k, m) as i64;
        assert_eq!(leads.iter().max(), Some(&stray), "ahead: {k} {m}");
        assert_eq!(leads.iter().min(), Some(&-stray), "behind: {k} {m}");
    }
}

#[test]
fn the_furthest_load_strays_by_the_deviation() {
    for k in 0..=10 {
        let furthest = (0..=1 << k).map(|m| stray(k, m)).max();
        assert_eq!(furthest.map(i128::from), Some(deviation(k)), "k = {k}");
    }
}

#[test]
fn strays_by_hand() {
    let of_eight: Vec<_> = (0..=8).map(|m| stray(3, m)).collect();
    assert_eq!(of_eight, [0, 7, 6, 9, 4, 9, 6, 7, 0]);
    for a in 0..=10 {
        assert_eq!(stray(10, 1 << a), 1_024 - (1 << a), "2^{a} cells");
    }
}

#[test]
fn loads_that_stray_alike() {
    for k in 0..10 {
        for m in 0..=1 << k {
            assert_eq!(stray(k + 1, 2 * m), 2 * stray(k, m), "doubled: {k} {m}");
            assert_eq!(stray(k, (1 << k) - m), stray(k, m), "idle: {k} {m}");
        }
    }
}

//! Balanced frames of one class: in each block the halves differ by at most a cell.

/// All of them that have 2^k slots and m cells, as the cells of each slot; up to one in a slot where m is at most 2^k.
pub fn frames(k: u32, m: u64) -> Vec<Vec<u64>> {
    if k == 0 {
        return vec![vec![m]];
    }
    let mut every = Vec::new();
    for first in m / 2..=m.div_ceil(2) {
        for front in frames(k - 1, first) {
            let backs = frames(k - 1, m - first).into_iter();
            every.extend(backs.map(|back| [front.clone(), back].concat()));
        }
    }
    every
}

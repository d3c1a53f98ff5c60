//! How far the first slots of a balanced frame may be from their share, by the load.

use std::sync::OnceLock;

/// The k of the longest frame, plus 1.
const SIZES: usize = 11;

/// The most cells that the first t of 2^k slots can have, m cells being balanced over all of them.
pub fn earliest(k: u32, m: u64, t: u64) -> u64 {
    earliest_cells(k, m)[..t as usize].iter().sum()
}

/// How far the first slots of a frame of 2^k, k being at most 10, may be from their share of its m cells, in parts of 1/2^k of a cell.
/// They may be as far behind it as ahead.
pub fn stray(k: u32, m: u64) -> u64 {
    static OF_EACH: [OnceLock<Vec<u64>>; SIZES] = [const { OnceLock::new() }; SIZES];
    // A further cell in every slot is as far from its share as none.
    let m = m % (1 << k);
    let strays = || (0..1 << k).map(|m| furthest(k, m)).collect();
    OF_EACH[k as usize].get_or_init(strays)[m as usize]
}

/// The furthest that the earliest cells get ahead of their share.
fn furthest(k: u32, m: u64) -> u64 {
    let (mut slots, mut cells, mut furthest) = (0, 0, 0);
    for here in earliest_cells(k, m) {
        (slots, cells) = (slots + 1, cells + here);
        furthest = furthest.max((cells << k) - slots * m);
    }
    furthest
}

/// The cells of each slot where each block of the frame has the odd one of its cells in its first half.
///
/// The cells are dealt to the two halves in turn, what each half got to its own halves, and so on. So the last bit of a cell's
/// number, from 0, is the first bit of its slot's.
fn earliest_cells(k: u32, m: u64) -> Vec<u64> {
    let mut each = vec![0; 1 << k];
    for cell in 0..m {
        let slot = (0..k).fold(0, |slot, bit| slot << 1 | cell >> bit & 1);
        each[slot as usize] += 1;
    }
    each
}

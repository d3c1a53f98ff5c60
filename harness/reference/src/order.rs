//! How many cells of buffer to order for a flow.

use crate::stray::stray;

/// The cells to order for a flow of m cells in each frame of 2^k slots that comes in by up to `ahead` parts of 1/2^k of a cell before
/// its share.
pub fn to_order(k: u32, m: u64, ahead: u64) -> u64 {
    (ahead + 2 * stray(k, m) + m) >> k
}

/// How far a source is ahead at most that sends up to so many cells at once and evenly otherwise; with one it is an even source.
pub fn at_once(k: u32, cells: u64) -> u64 {
    (cells << k) - 1
}

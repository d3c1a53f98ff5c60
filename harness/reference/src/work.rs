//! How much work a build was, counted in the finished frame alone.

/// The odd counts settled: over all blocks of two or more slots, the flows with an odd number of cells in that block.
pub fn settled(ports: u64, frame: &[u16]) -> u64 {
    let slot = ports as usize;
    let mut settled = 0;
    let mut size = frame.len() / slot;
    while size >= 2 {
        settled += frame.chunks(size * slot).map(odd_counts).sum::<u64>();
        size /= 2;
    }
    settled
}

/// What the odd counts settled come to at most in a frame of 2^k slots: ports × slots × k.
pub fn bound(ports: u64, k: u32) -> u64 {
    (ports << k) * u64::from(k)
}

/// The same size of block by size: no block has more of them than the list has flows, nor than its slots can have cells.
pub fn bound_by_size(ports: u64, flows: u64, k: u32) -> u64 {
    let blocks = (0..k).map(|depth| 1 << depth);
    blocks
        .map(|blocks: u64| (ports << k).min(blocks * flows))
        .sum()
}

/// The flows with an odd number of cells in one block.
pub fn odd_counts(block: &[u16]) -> u64 {
    let highest = block.iter().max().copied().unwrap_or_default();
    let mut is_odd = vec![false; usize::from(highest) + 1];
    for &entry in block {
        is_odd[usize::from(entry)] ^= true;
    }
    let flows = is_odd.iter().skip(1);
    flows.filter(|&&is_odd| is_odd).count() as u64
}

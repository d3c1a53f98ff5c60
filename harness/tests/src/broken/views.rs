//! Views of something else than the slot.

use calls::{Calls, Reference};

use crate::broken::cut;

/// The reference's view as a plain function.
pub fn right_view<'f>(
    ports: u64,
    slots: u64,
    frame: &'f [u16],
    slot: u64,
    number: &mut u64,
) -> &'f [u16] {
    Reference.slot_view(ports, slots, frame, slot, number)
}

/// Empty for a good slot.
pub fn empty_view<'f>(
    ports: u64,
    slots: u64,
    frame: &'f [u16],
    slot: u64,
    number: &mut u64,
) -> &'f [u16] {
    &right_view(ports, slots, frame, slot, number)[..0]
}

/// Shows the slot after the one asked for.
pub fn neighbour_view<'f>(
    ports: u64,
    slots: u64,
    frame: &'f [u16],
    slot: u64,
    number: &mut u64,
) -> &'f [u16] {
    let mut ignored = 0;
    let own = right_view(ports, slots, frame, slot, number);
    let next = right_view(ports, slots, frame, slot.wrapping_add(1), &mut ignored);
    if next.is_empty() {
        own
    } else {
        next
    }
}

/// Shows the right entries in a place of their own.
pub fn copied_view<'f>(
    ports: u64,
    slots: u64,
    frame: &'f [u16],
    slot: u64,
    number: &mut u64,
) -> &'f [u16] {
    right_view(ports, slots, frame, slot, number)
        .to_vec()
        .leak()
}

/// Leaves the lent number alone unless it refuses.
pub fn unnumbered_view<'f>(
    ports: u64,
    slots: u64,
    frame: &'f [u16],
    slot: u64,
    number: &mut u64,
) -> &'f [u16] {
    let before = *number;
    let view = right_view(ports, slots, frame, slot, number);
    if *number == 0 {
        *number = before;
    }
    view
}

/// Shows slot 1 where slot 2^32 + 1 is asked for.
pub fn cut_view<'f>(
    ports: u64,
    slots: u64,
    frame: &'f [u16],
    slot: u64,
    number: &mut u64,
) -> &'f [u16] {
    right_view(ports, slots, frame, cut(slot), number)
}

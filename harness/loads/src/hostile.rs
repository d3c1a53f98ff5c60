//! Numbers and lengths at which careless arithmetic gives way.

use crate::random::Random;

/// The numbers that stand in every place of every call.
pub const HOSTILE: [u64; 6] = [0, 1, 17, 1 << 16, 1 << 32, u64::MAX];

/// Those of them that can be the length of a lent slice.
const LENT: [u64; 4] = [0, 1, 17, 1 << 16];

/// Numbers next to a limit of the switch, of a list, of a run, of a byte or of a word.
const NEIGHBOURS: [u64; 26] = [
    2,
    3,
    15,
    16,
    18,
    255,
    256,
    257,
    511,
    512,
    513,
    1_023,
    1_024,
    1_025,
    2_048,
    (1 << 16) - 1,
    (1 << 16) + 1,
    999_999,
    1_000_000,
    1_000_001,
    (1 << 32) - 1,
    (1 << 32) + 1,
    (1 << 63) - 1,
    1 << 63,
    (1 << 63) + 1,
    u64::MAX - 1,
];

/// A hostile number, a neighbour, or the good one again with a bit above those that a short word keeps.
pub fn hostile_number(good: u64, random: &mut Random) -> u64 {
    match random.below(8) {
        0..=4 => random.pick(&HOSTILE),
        5 | 6 => random.pick(&NEIGHBOURS),
        _ => good.wrapping_add(1 << random.pick(&[8, 16, 32, 63])),
    }
}

/// A port of a flow, which is lent in 16 bits, that no switch has, or the good one again with a bit above those of a byte.
pub fn hostile_port(good: u16, random: &mut Random) -> u16 {
    random.pick(&[0, 17, 255, 256, u16::MAX, good.wrapping_add(1 << 8)])
}

/// A link of a flow that no output has, or the good one again with a bit above those of a byte.
pub fn hostile_link(good: u16, random: &mut Random) -> u16 {
    random.pick(&[0, 5, 255, 256, u16::MAX, good.wrapping_add(1 << 8)])
}

kinds! {
    /// The limit of a link.
    LimitKind {
        Good = "good",
        Zero = "0",
        One = "1",
        Slots = "slots",
        Largest = "65535",
    }
}

/// A limit of the kind.
pub fn hostile_limit(kind: LimitKind, good: u16, slots: u64) -> u16 {
    match kind {
        LimitKind::Good => good,
        LimitKind::Zero => 0,
        LimitKind::One => 1,
        LimitKind::Slots => slots as u16,
        LimitKind::Largest => u16::MAX,
    }
}

kinds! {
    /// A slice's length, against the one that the call asks for.
    LengthKind {
        Exact = "exact",
        Empty = "empty",
        OneShort = "one short",
        OneOver = "one over",
        Hostile = "hostile",
        Other = "other",
        Overlong = "overlong",
    }
}

/// A length of the kind, where the longest slice to be lent has this many elements.
pub fn hostile_length(
    kind: LengthKind,
    exact: usize,
    longest: usize,
    random: &mut Random,
) -> usize {
    match kind {
        LengthKind::Exact => exact,
        LengthKind::Empty => 0,
        LengthKind::OneShort => exact.saturating_sub(1),
        LengthKind::OneOver => exact + 1,
        LengthKind::Hostile => random.pick(&LENT) as usize,
        LengthKind::Other => random.place(longest),
        LengthKind::Overlong => longest - random.place(longest / 2),
    }
}

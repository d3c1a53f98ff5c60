//! The flows that stray furthest from their share.

use crate::random::Random;

/// Two frames of two ports and 2^k slots: flow 2 of pair (1, 2) alone with m cells, then the same m cells of it beside flow 1 of
/// pair (1, 1), which has all other slots of input 1. In the run from slot t of the one to slot 2^k - t of the other the flow gets
/// 2 × deviation less than its share, in parts of 1/2^k of a cell, and no flow of any chain gets less than that.
///
/// How m and t are found. An odd count that is the only one favours the first half in every block of the path that leads to t:
/// it is the block's first group with an odd number of counts. Beside an odd partner that comes first in the list it
/// favours the second, so that its path is the other's mirror image. Let
/// the lone flow's path go into a first half, then a second, then a first, and so on down to a block of two slots. Each
/// block of it then has the last two middles for its ends, and at its own middle the flow is ahead by half a cell more
/// than the mean of those two: that is the recurrence of the deviation. t is the last middle, so that the t of 2^(k + 1)
/// slots is 2^k less the t of 2^k. The count has to be odd all along the path: it is 1 in the last block, and in each
/// block above twice the count of the half that the path goes into, less 1 for a first half and 1 more for a second.
#[derive(Clone, Copy, Debug, PartialEq, Eq)]
pub struct Seam {
    pub k: u32,
    pub slots: u64,
    /// m.
    pub cells: u16,
    /// t.
    pub turn: usize,
    pub deviation: i128,
}

const fn seam(k: u32, slots: u64, cells: u16, turn: usize, deviation: i128) -> Seam {
    Seam {
        k,
        slots,
        cells,
        turn,
        deviation,
    }
}

/// The seam of each k from 1 to 10.
pub const SEAMS: [Seam; 10] = [
    seam(1, 2, 1, 1, 1),
    seam(2, 4, 1, 1, 3),
    seam(3, 8, 5, 3, 9),
    seam(4, 16, 5, 5, 23),
    seam(5, 32, 21, 11, 57),
    seam(6, 64, 21, 21, 135),
    seam(7, 128, 85, 43, 313),
    seam(8, 256, 85, 85, 711),
    seam(9, 512, 341, 171, 1_593),
    seam(10, 1_024, 341, 341, 3_527),
];

impl Seam {
    /// The seam of frames of this many slots; a frame of one slot has none.
    pub fn of_slots(slots: usize) -> Option<Seam> {
        let mut seams = SEAMS.into_iter();
        seams.find(|seam| seam.slots == slots as u64)
    }

    /// The list of the first frame.
    pub fn alone(self) -> [u16; 8] {
        load_alone(self.cells)
    }

    /// The list of the second.
    pub fn beside(self) -> [u16; 8] {
        load_beside(self.slots, self.cells)
    }

    /// Other cells for the flow, one or more, that leave a slot or more to its partner. At such a seam the first cell of a queue
    /// waits as long as any does; it waits as long as its load allows where the cells are the difference of two powers of two, such as
    /// half of the slots less 1.
    pub fn other_cells(self, random: &mut Random) -> u16 {
        let cells = match random.below(4) {
            0 | 1 => (self.slots / 2).max(2) - 1,
            2 => (1 << random.between(1, self.k.into())) - 1,
            _ => random.between(1, self.slots - 1),
        };
        cells as u16
    }
}

/// The list of two flows of input 1, both on link 1, the second of which has cells.
pub fn load_alone(cells: u16) -> [u16; 8] {
    [1, 1, 0, 1, 1, 2, cells, 1]
}

/// The same where the first has all other slots of the input.
pub fn load_beside(slots: u64, cells: u16) -> [u16; 8] {
    [1, 1, slots as u16 - cells, 1, 1, 2, cells, 1]
}

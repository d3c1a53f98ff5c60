//! How long a cell waits: how long it may by either bound, the longest run of a chain with too few cells, and a queue cell by
//! cell.

use std::collections::VecDeque;
use std::iter;

use crate::stray::stray;
use crate::wire::{demanded, Course, Run, Slot};

/// How long cells of a class may wait on frames of 2^k slots, each of which has m of its cells or more, m being 1 or more.
#[derive(Clone, Copy, Debug)]
pub struct Allowed {
    /// What a run may lack of its share, in parts of a cell.
    lacking: u128,
    /// The parts that make a cell.
    cell: u128,
    /// The parts that each slot adds to the share of a run.
    each_slot: u128,
}

impl Allowed {
    /// By the bound of the load, in parts of 1/2^k of a cell.
    pub fn by_load(k: u32, m: u64) -> Allowed {
        Allowed {
            lacking: 2 * u128::from(stray(k, m)),
            cell: 1 << k,
            each_slot: m.into(),
        }
    }

    /// By demand 3, in parts of a third of that.
    pub fn demanded(k: u32, m: u64) -> Allowed {
        Allowed {
            lacking: demanded(k) as u128,
            cell: 3 << k,
            each_slot: 3 * u128::from(m),
        }
    }

    /// The slots after which a cell has left that was w-th in its queue, w being 1 or more: the least length of which every run
    /// has w cells.
    pub fn longest(self, w: u64) -> u128 {
        let before = u128::from(w.saturating_sub(1)) * self.cell;
        (self.lacking + before) / self.each_slot + 1
    }
}

/// The same by blocks: every block of 2^i slots has a cell, where 2^(k - i) is the greatest power of two not above m, and a run of
/// w + 1 blocks less one slot has w whole ones. Some cell that is first in its queue waits as long, w being 1.
pub fn by_blocks(k: u32, m: u64, w: u64) -> u128 {
    let i = k.saturating_sub(m.ilog2());
    ((u128::from(w) + 1) << i) - 1
}

/// The slots after which every cell has left that waited after some slot, at whatever place, where each frame has m cells and no more
/// than their share and `ahead` come in, in parts of 1/2^k of a cell.
pub fn paced(k: u32, m: u64, ahead: u64) -> u128 {
    paced_at_seams(k, m, stray(k, m), ahead)
}

/// The same where each frame has m cells or more, and no load strays further than `furthest`.
pub fn paced_at_seams(k: u32, m: u64, furthest: u64, ahead: u64) -> u128 {
    let waiting = u128::from(ahead) + 2 * u128::from(furthest);
    let more = waiting.checked_sub(1 << k);
    more.map_or(0, |parts| parts / u128::from(m) + 1)
}

/// Frames that follow on each other in a chain and all have cells of a class, of a link, or some at all: a chain by themselves.
#[derive(Clone, Debug)]
pub struct Stretch<'c> {
    /// The slots of a frame, 2^k.
    pub slots: u64,
    /// The slot of the whole chain that it begins with.
    pub start: usize,
    pub given: &'c [Slot],
    /// m, the fewest cells that a frame of it has.
    pub fewest: u64,
    /// The slot of each cell, counted from `start`.
    pub cells: Vec<usize>,
}

/// The stretches of a chain, each as long as can be, in which every frame has so many cells or more, as counted in the frame.
pub fn stretches(course: &Course, least: u64) -> Vec<Stretch<'_>> {
    let slots = course.slots as usize;
    let cells_of = |frame: &[Slot]| frame.iter().map(|slot| slot.cells).sum();
    let frames: Vec<u64> = course.given.chunks(slots).map(cells_of).collect();
    let mut stretches = Vec::new();
    let mut start = 0;
    for frames in frames.split(|&cells| cells < least) {
        let length = frames.len() * slots;
        if let Some(&fewest) = frames.iter().min() {
            let given = &course.given[start..][..length];
            stretches.push(Stretch {
                slots: course.slots,
                start,
                given,
                fewest,
                cells: places(given),
            });
        }
        start += length + slots;
    }
    stretches
}

/// The slot of each cell.
fn places(given: &[Slot]) -> Vec<usize> {
    let slots = given.iter().enumerate();
    let cells = slots.flat_map(|(place, slot)| iter::repeat_n(place, slot.cells as usize));
    cells.collect()
}

impl Stretch<'_> {
    /// The k of 2^k slots.
    pub fn k(&self) -> u32 {
        self.slots.trailing_zeros()
    }

    /// What it gives the class, by itself.
    pub fn course(&self) -> Course {
        Course {
            slots: self.slots,
            given: self.given.to_vec(),
        }
    }

    /// The longest run with fewer than w cells, w being 1 or more. It begins after a cell, and ends before the w-th from there on,
    /// or it begins or ends with the stretch.
    pub fn longest_run(&self, w: u64) -> Run {
        let after_each = self.cells.iter().map(|slot| slot + 1);
        let begins = iter::once(0).chain(after_each);
        let others = (w as usize).saturating_sub(1);
        let ends = self.cells.iter().copied().skip(others);
        let ends = ends.chain(iter::repeat(self.given.len()));
        let runs = begins.zip(ends).map(|(start, end)| Run {
            start,
            length: end.saturating_sub(start),
        });
        let none = Run {
            start: 0,
            length: 0,
        };
        runs.fold(none, longer)
    }

    /// The slots after which the cell has left that waits longest of all that are w-th in their queue, or could be.
    pub fn wait(&self, w: u64) -> u64 {
        self.longest_run(w).length as u64 + 1
    }

    /// The place at which a wait comes nearest to what is allowed: the cells of the run that falls furthest behind m cells a
    /// frame, and one more.
    pub fn hardest_place(&self) -> u64 {
        let course = self.course().against(self.fewest);
        course.cells(course.furthest_behind()) as u64 + 1
    }
}

/// The longer run, the first of two that are as long.
fn longer(one: Run, other: Run) -> Run {
    if one.length < other.length {
        other
    } else {
        one
    }
}

/// A cell that waits.
struct Joined {
    slot: usize,
    /// Its place after that slot.
    place: u64,
}

impl Joined {
    fn left_in(self, slot: usize) -> Wait {
        Wait {
            place: self.place,
            slots: (slot - self.slot) as u64,
        }
    }
}

/// How long a cell waited.
#[derive(Clone, Copy, Debug, PartialEq, Eq)]
pub struct Wait {
    /// Its place in the queue after the slot in which it came, 1 being the first; 0 if it left in that slot.
    pub place: u64,
    /// The slots after that one up to the one in which it left, or to the first after the last if it never did.
    pub slots: u64,
}

/// Runs a queue cell by cell, first in, first out: cells join before the slot's own cells leave.
pub fn pass_each(given: &[Slot], arrivals: &[u64]) -> Vec<Wait> {
    let mut queue: VecDeque<Joined> = VecDeque::new();
    let mut waits = Vec::new();
    for (slot, (given, arrived)) in given.iter().zip(arrivals).enumerate() {
        let waiting = queue.len() as u64;
        let sent = given.cells.min(waiting + arrived);
        let places = waiting + 1..=waiting + arrived;
        queue.extend(places.map(|place| Joined {
            slot,
            place: place.saturating_sub(sent),
        }));
        let leaving = queue.drain(..sent as usize);
        waits.extend(leaving.map(|cell| cell.left_in(slot)));
    }
    waits.extend(queue.into_iter().map(|cell| cell.left_in(given.len())));
    waits
}

//! The queue of one flow, of a link, or of all cells together, slot by slot, and along a row of switches.

use crate::stray::stray;
use crate::wire::Course;

/// Cells that come in as fast as they may: none before slot `from`, and in no run of slots more than the flow's share of
/// the run and `ahead` more, which is in parts of 1/2^k of a cell.
#[derive(Clone, Copy, Debug)]
pub struct Source {
    pub from: usize,
    pub ahead: u64,
}

impl Source {
    /// The cells that come in in each slot of the course.
    pub fn arrivals(self, course: &Course) -> Vec<u64> {
        let mut arrivals = vec![0; course.given.len()];
        let mut credit = self.ahead;
        let slots = arrivals.iter_mut().zip(&course.given);
        for (arrived, slot) in slots.skip(self.from) {
            credit = credit.min(self.ahead) + slot.load;
            *arrived = credit / course.slots;
            credit %= course.slots;
        }
        arrivals
    }
}

/// What came of the cells that a flow brought to a switch.
#[derive(Clone, Debug, PartialEq, Eq)]
pub struct Passed {
    /// The cells that left in each slot.
    pub sent: Vec<u64>,
    /// The most cells that waited after a slot.
    pub waiting: u64,
    /// The most that waited after a slot, less the stray of its load, in parts of 1/2^k of a cell.
    after: i128,
    /// The most that waited just before a slot's cell left, less the slot's share and the stray of its load.
    before: i128,
    /// The largest stray of a frame's load.
    furthest: i128,
}

/// How far the queue stood at most from what is allowed, in parts of 1/2^k of a cell; above 0 is too deep.
#[derive(Clone, Copy, Debug, PartialEq, Eq)]
pub struct Depth {
    /// After a slot.
    pub after: i128,
    /// Just before a slot's cell leaves.
    pub before: i128,
}

impl Passed {
    /// The depth where the cells came in by no more than `ahead` parts of 1/2^k of a cell before their share.
    pub fn depth(&self, ahead: u64) -> Depth {
        let allowed = i128::from(ahead) + self.furthest;
        Depth {
            after: self.after - allowed,
            before: self.before - allowed,
        }
    }
}

/// Runs the flow's queue: cells join before the slot's own cell leaves.
pub fn pass(course: &Course, arrivals: &[u64]) -> Passed {
    let furthest = course.largest_stray();
    let mut passed = Passed {
        sent: Vec::with_capacity(arrivals.len()),
        waiting: 0,
        after: -furthest,
        before: -furthest,
        furthest,
    };
    let parts = |cells: u64| i128::from(course.slots) * i128::from(cells);
    let mut queue = 0;
    for (place, (slot, arrived)) in course.given.iter().zip(arrivals).enumerate() {
        let stray = course.stray_at(place);
        queue += arrived;
        let before = parts(queue) - i128::from(slot.load) - stray;
        passed.before = passed.before.max(before);
        let sent = slot.cells.min(queue);
        queue -= sent;
        passed.after = passed.after.max(parts(queue) - stray);
        passed.waiting = passed.waiting.max(queue);
        passed.sent.push(sent);
    }
    passed
}

/// Runs the buffer at the card of a link: all that is scheduled comes, and the line takes `most` cells a frame, evenly, from a phase
/// of 1/2^k parts of a cell on. Such a line is behind by less than a cell.
pub fn pass_card(course: &Course, most: u64, phase: u64) -> Depth {
    let taken_before = |slot: u64| (slot * most + phase) / course.slots;
    let allowed = i128::from(course.slots - 1) + 2 * i128::from(stray(course.k(), most));
    let parts = |cells: u64| i128::from(course.slots) * i128::from(cells);
    let mut depth = Depth {
        after: -allowed,
        before: -allowed,
    };
    let mut queue = 0;
    for (slot, given) in (0..).zip(&course.given) {
        queue += given.cells;
        depth.before = depth.before.max(parts(queue) - i128::from(most) - allowed);
        queue -= queue.min(taken_before(slot + 1) - taken_before(slot));
        depth.after = depth.after.max(parts(queue) - allowed);
    }
    depth
}

/// How far ahead of its share a switch can send a flow of m cells a frame, in parts of 1/2^k of a cell.
pub fn ahead_behind_a_switch(k: u32, m: u64) -> u64 {
    2 * stray(k, m)
}

/// A switch of a row: what it gives the flow, and how many slots later than sent the cells reach it.
#[derive(Clone, Debug)]
pub struct Switch {
    pub course: Course,
    pub delay: usize,
}

/// Runs a flow's queues along a row of switches, each fed with what the one before it sent.
pub fn pass_row(row: &[Switch], arrivals: &[u64]) -> Vec<Passed> {
    let mut coming = arrivals.to_vec();
    let switches = row.iter().map(|switch| {
        let late = std::iter::repeat_n(0, switch.delay);
        let arrivals: Vec<u64> = late.chain(coming.iter().copied()).collect();
        let passed = pass(&switch.course, &arrivals);
        coming.clone_from(&passed.sent);
        passed
    });
    switches.collect()
}

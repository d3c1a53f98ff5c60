//! The accuracy rule: what the wire carried, counted entry by entry against the share.

use crate::flow::{cells_of, flows_of, sent_in, Flow};
use crate::query::Class;
use crate::side::Side;
use crate::stray::stray;

/// Whose share the accuracy rule speaks of: the classes that Service count counts, the links of outputs, and all cells together.
#[derive(Clone, Copy, Debug, PartialEq, Eq)]
pub enum Whose {
    Class(Class),
    Link { output: u64, link: u64 },
    Total,
}

impl From<Class> for Whose {
    fn from(class: Class) -> Whose {
        Whose::Class(class)
    }
}

impl Whose {
    /// Their cells among the entries of one slot, which the wire carries by inputs, whatever those are; for a link and for the total only
    /// an entry counts that is a flow.
    fn cells_in_slot(self, flows: &[Flow], slot: &[u16]) -> u64 {
        match self {
            Whose::Class(class) => class.cells_in_slot(Side::Input, flows, slot),
            Whose::Link { output, link } => sent_in(slot, flows, |flow| flow.is_on(output, link)),
            Whose::Total => sent_in(slot, flows, |_| true),
        }
    }

    /// Their load; that of a flow that is not in the list is 0.
    fn load_in(self, flows: &[Flow]) -> u64 {
        match self {
            Whose::Class(class) => class.load_in(flows),
            Whose::Link { output, link } => cells_of(flows, |flow| flow.is_on(output, link)),
            Whose::Total => cells_of(flows, |_| true),
        }
    }
}

/// One frame as the wire carried it, with the list of the last accepted call before it.
#[derive(Clone, Debug)]
pub struct Frame {
    pub ports: u64,
    pub slots: u64,
    pub list: Vec<u16>,
    pub entries: Vec<u16>,
}

impl Frame {
    /// Adds what they are given in each slot, counted with the frame's own list.
    fn count(&self, whose: Whose, given: &mut Vec<Slot>) {
        let flows = flows_of(&self.list);
        let load = whose.load_in(&flows);
        let slots = self.entries.chunks(self.ports as usize);
        given.extend(slots.map(|slot| Slot {
            load,
            cells: whose.cells_in_slot(&flows, slot),
        }));
    }
}

/// Whether all frames have one number of ports and one of slots, as the rule asks.
pub fn is_chain(frames: &[Frame]) -> bool {
    let shape = |frame: &Frame| (frame.ports, frame.slots, frame.entries.len() as u64);
    frames.iter().all(|frame| {
        shape(frame) == shape(&frames[0]) && frame.ports * frame.slots == frame.entries.len() as u64
    })
}

/// Consecutive slots of a chain; the first slot of the chain is slot 0.
#[derive(Clone, Copy, Debug, PartialEq, Eq)]
pub struct Run {
    pub start: usize,
    pub length: usize,
}

/// The cells of a class, of a link, or all cells, in a slot, and their load in the frame that the slot is in.
#[derive(Clone, Copy, Debug, PartialEq, Eq)]
pub struct Slot {
    pub load: u64,
    pub cells: u64,
}

/// What a chain gives one class, a link, or all cells together, slot by slot.
#[derive(Clone, Debug)]
pub struct Course {
    /// The slots of a frame, 2^k.
    pub slots: u64,
    pub given: Vec<Slot>,
}

impl Course {
    /// Counts the entries of a chain, those of each frame with its own list.
    pub fn of(chain: &[Frame], whose: impl Into<Whose>) -> Course {
        let whose = whose.into();
        let slots = chain.first().map_or(1, |frame| frame.slots);
        let mut given = Vec::with_capacity(chain.len() * slots as usize);
        for frame in chain {
            frame.count(whose, &mut given);
        }
        Course { slots, given }
    }

    /// The k of 2^k slots.
    pub fn k(&self) -> u32 {
        self.slots.trailing_zeros()
    }

    /// The same cells, counted against a load of m in every frame.
    pub fn against(&self, m: u64) -> Course {
        let given = self.given.iter().map(|slot| Slot { load: m, ..*slot });
        Course {
            slots: self.slots,
            given: given.collect(),
        }
    }

    fn run(&self, run: Run) -> &[Slot] {
        &self.given[run.start..][..run.length]
    }

    /// The cells in the run.
    pub fn cells(&self, run: Run) -> u128 {
        self.run(run)
            .iter()
            .map(|slot| u128::from(slot.cells))
            .sum()
    }

    /// The run's share times 2^k: each slot adds its frame's load once.
    pub fn share(&self, run: Run) -> u128 {
        self.run(run).iter().map(|slot| u128::from(slot.load)).sum()
    }

    /// How far the cells are ahead of their share in the run, in parts of 1/2^k of a cell; below 0 is behind. Nothing is rounded.
    pub fn lead(&self, run: Run) -> i128 {
        (u128::from(self.slots) * self.cells(run)) as i128 - self.share(run) as i128
    }

    /// Demand 3 and the bound of the loads for one run.
    pub fn has_its_share(&self, run: Run) -> bool {
        let lead = self.lead(run).abs();
        3 * lead <= demanded(self.k()) && lead <= self.bound(run)
    }

    /// The same for all cells of built frames, of whose blocks the first half always gets the extra cell: a run is ahead only by
    /// what it ends in, and behind only by what it begins in.
    pub fn total_has_its_share(&self, run: Run) -> bool {
        let lead = self.lead(run);
        let most = self.off(run.start + run.length);
        self.has_its_share(run) && -self.off(run.start) <= lead && lead <= most
    }

    /// How far the run may be from its share, ahead or behind, in parts of 1/2^k of a cell: what each of its ends may be off.
    pub fn bound(&self, run: Run) -> i128 {
        self.off(run.start) + self.off(run.start + run.length)
    }

    /// How far the slots before this one may be off: by the stray of its frame's load, but not at all where a frame begins or ends.
    fn off(&self, slot: usize) -> i128 {
        match self.begins_a_frame(slot) {
            true => 0,
            false => self.stray_at(slot),
        }
    }

    /// The stray of the load of the slot's frame.
    pub fn stray_at(&self, slot: usize) -> i128 {
        stray(self.k(), self.given[slot].load).into()
    }

    /// The largest stray of a frame's load.
    pub fn largest_stray(&self) -> i128 {
        let frames = (0..self.given.len()).step_by(self.slots as usize);
        let strays = frames.map(|slot| self.stray_at(slot));
        strays.max().unwrap_or_default()
    }

    fn begins_a_frame(&self, slot: usize) -> bool {
        slot.is_multiple_of(self.slots as usize)
    }

    /// The run on which the cells stray furthest from their share.
    pub fn furthest_run(&self) -> Run {
        further([1, -1].map(|sign| self.greatest(sign, anywhere, anywhere)))
    }

    /// The run on which the cells get furthest ahead of their share.
    pub fn furthest_ahead(&self) -> Run {
        self.greatest(1, anywhere, anywhere).1
    }

    /// The run on which the cells fall furthest behind their share.
    pub fn furthest_behind(&self) -> Run {
        self.greatest(-1, anywhere, anywhere).1
    }

    /// The furthest of the runs that begin with a frame.
    pub fn furthest_from_a_frame(&self) -> Run {
        let with_a_frame = |slot| self.begins_a_frame(slot).then_some(0);
        further([1, -1].map(|sign| self.greatest(sign, with_a_frame, anywhere)))
    }

    /// The run that comes nearest to its bound, or goes furthest beyond it.
    pub fn nearest_run(&self) -> Run {
        let offs = self.offs();
        let off = |slot: usize| Some(offs[slot]);
        further([1, -1].map(|sign| self.greatest(sign, off, off)))
    }

    /// The same of those that may be off at both ends.
    pub fn nearest_off_at_both(&self) -> Run {
        let offs = self.offs();
        let inside = |slot: usize| Some(offs[slot]).filter(|&off| off > 0);
        further([1, -1].map(|sign| self.greatest(sign, inside, inside)))
    }

    /// The run of all cells that comes nearest to the bound of built frames.
    pub fn nearest_of_total(&self) -> Run {
        let offs = self.offs();
        let off = |slot: usize| Some(offs[slot]);
        let ahead = self.greatest(1, anywhere, off);
        further([ahead, self.greatest(-1, off, anywhere)])
    }

    /// How far the slots before each slot may be off, and before the end of the chain.
    fn offs(&self) -> Vec<i64> {
        let slots = self.slots as usize;
        let mut offs = vec![0; self.given.len() + 1];
        for first in (0..self.given.len()).step_by(slots) {
            offs[first + 1..first + slots].fill(self.stray_at(first) as i64);
        }
        offs
    }

    /// Of the runs that may begin and end where they do, the one whose lead times the sign is greatest, less what is allowed at
    /// each end, after that difference; a run of no slots where none may.
    fn greatest(
        &self,
        sign: i64,
        begins: impl Fn(usize) -> Option<i64>,
        ends: impl Fn(usize) -> Option<i64>,
    ) -> (i64, Run) {
        let slots = self.slots as i64;
        let steps = self.given.iter();
        let steps = steps.map(|slot| sign * (slots * slot.cells as i64 - slot.load as i64));
        let (mut lead, mut least, mut greatest) = (0, None, (i64::MIN, NO_SLOTS));
        for (place, step) in steps.chain([0]).enumerate() {
            if let Some(allowed) = begins(place) {
                let from = (lead + allowed, place);
                least = Some(least.map_or(from, |least| from.min(least)));
            }
            if let (Some((from, start)), Some(allowed)) = (least, ends(place)) {
                let above = lead - allowed - from;
                if above > greatest.0 {
                    let length = place - start;
                    greatest = (above, Run { start, length });
                }
            }
            lead += step;
        }
        greatest
    }
}

/// The run of no slots at the beginning of a chain.
const NO_SLOTS: Run = Run {
    start: 0,
    length: 0,
};

/// An end of a run at which nothing is allowed, wherever it is.
fn anywhere(_: usize) -> Option<i64> {
    Some(0)
}

/// The run with the greater number before it, the first of two that have the same.
fn further([one, other]: [(i64, Run); 2]) -> Run {
    if one.0 < other.0 {
        other.1
    } else {
        one.1
    }
}

/// Three times the bound of demand 3 in parts of 1/2^k of a cell: (2k + 1) × 2^k.
pub fn demanded(k: u32) -> i128 {
    i128::from(2 * k + 1) << k
}

/// How far a class, a link or the total can be from its share, in parts of 1/2^k of a cell, after the first slots of a frame of 2^k,
/// whatever its load.
///
/// Each place in a frame is the middle of one block, and there within half a cell of the mean of the block's two ends. Of
/// these one is the middle of the block's own parent, the other that of a block before it, or an end of the frame.
pub fn deviation(k: u32) -> i128 {
    match k {
        0 => 0,
        1 => 1,
        _ => deviation(k - 1) + 2 * deviation(k - 2) + (1 << (k - 1)),
    }
}

/// How far a run of one frame of 2^k slots that repeats can be from its share, in parts of 1/2^k of a cell, whatever the load: from four
/// slots on by as many cells as a run across two different frames of half the slots.
pub fn repeat_deviation(k: u32) -> i128 {
    match k {
        0 => 0,
        1 => 1,
        _ => 4 * deviation(k - 1),
    }
}

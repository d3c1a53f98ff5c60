//! How deep the queue of a flow, of a port, of a link, or of all cells together, stands on a chain.

use loads::Random;
use reference::queue::{pass, pass_card, Source};
use reference::wire::{Course, Run, Whose};

use crate::hits::{Hits, QUEUE_REACHED_AFTER, QUEUE_REACHED_BEFORE};
use crate::verdict::{expect, Verdict};

/// Cells that come in as fast as they may, from where the class begins to fall behind or from anywhere.
pub fn random_source(course: &Course, random: &mut Random) -> Source {
    let behind = course.furthest_behind();
    let anywhere = random.between(0, course.given.len() as u64) as usize;
    Source {
        from: random.pick(&[behind.start, anywhere]),
        ahead: random_allowance(course, behind, random),
    }
}

/// Runs a queue that is fed as fast as it may be.
pub fn check_queue(course: &Course, whose: Whose, random: &mut Random, hits: &mut Hits) -> Verdict {
    let source = random_source(course, random);
    let passed = pass(course, &source.arrivals(course));
    let depth = passed.depth(source.ahead);
    let above = i128::from(course.slots * passed.waiting) - i128::from(source.ahead);
    hits.deepen(course.k(), 1, above);
    let strays = course.largest_stray() > 0;
    if strays && depth.after == 0 {
        hits.add_at(QUEUE_REACHED_AFTER, course.k());
    }
    if strays && depth.before == 0 {
        hits.add_at(QUEUE_REACHED_BEFORE, course.k());
    }
    expect(depth.after <= 0 && depth.before <= 0, || {
        format!("the queue of {whose:?}, fed by {source:?}, stands too deep: {depth:?}")
    })
}

/// Runs the buffer at the card of a link whose line takes as many cells a frame as the link has in any, and one of a line that takes the
/// next power of two, and holds both to what their cards need.
pub fn check_card(course: &Course, whose: Whose) -> Verdict {
    let loads = course.given.iter().map(|slot| slot.load);
    let largest = loads.max().unwrap_or_default();
    let limits = [largest, largest.next_power_of_two()];
    let lines = limits.map(|limit| [0, course.slots - 1].map(|phase| (limit, phase)));
    let mut lines = lines.into_iter().flatten();
    lines.try_for_each(|(most, phase)| {
        let depth = pass_card(course, most, phase);
        expect(depth.after <= 0 && depth.before <= 0, || {
            format!("at the card of {whose:?}, whose line takes {most} from {phase} on, too many wait: {depth:?}")
        })
    })
}

/// How far the source may be ahead, in parts of 1/2^k of a cell: any, whole cells, or what leaves whole cells to wait at
/// the end of the run in which the flow falls furthest behind, after its last slot or before the next one's cell leaves.
fn random_allowance(course: &Course, behind: Run, random: &mut Random) -> u64 {
    let next = behind.start + behind.length;
    let stray = |slot: usize| match course.given.get(slot) {
        Some(_) => (course.largest_stray() + course.stray_at(slot)) as u64,
        None => 0,
    };
    let load = course.given.get(next).map_or(0, |slot| slot.load);
    let filling_up = |parts: u64| {
        let whole = parts.next_multiple_of(course.slots);
        course.slots + whole - parts
    };
    match random.below(4) {
        0 => random.between(0, 3 * course.slots),
        1 => random.between(0, 3) * course.slots,
        2 => filling_up(stray(next.saturating_sub(1))),
        _ => filling_up(stray(next) + load),
    }
}

/// Cells that come in the slots of a chain as they like, from some slot of its first two frames on: now and then or often, each
/// time up to one of these numbers.
pub fn random_bursts(chain: u64, frame: u64, numbers: &[u64], random: &mut Random) -> Vec<u64> {
    let later = random.below(2 * frame);
    let from = random.pick(&[0, later, later]);
    let gap = random.pick(&[1, 3, 10, frame]);
    let most = random.pick(numbers);
    let burst = |slot: u64| {
        if slot >= from && random.one_in(gap) {
            random.between(0, most)
        } else {
            0
        }
    };
    (0..chain).map(burst).collect()
}

//! How long cells wait on a chain.

use loads::Random;
use reference::wait::{by_blocks, paced_at_seams, pass_each, stretches, Allowed, Stretch};
use reference::wire::{Course, Run, Whose};

use crate::hits::{
    Hits, Queued, Waited, FIRST_WAIT_REACHED, PACED_COMPARED, PACED_REACHED, QUEUE_BY_CELLS,
    WAIT_COMPARED, WAIT_REACHED,
};
use crate::queue_case::{random_bursts, random_source};
use crate::verdict::{expect, Verdict};

/// Holds the longest waits of a class, of a link, or of all cells, to what is allowed, wherever the frames of a chain have so many of its
/// cells, one or more: those of the first three places, of the one that comes nearest to it, and of a larger one.
pub fn check_waits(
    course: &Course,
    whose: Whose,
    least: u64,
    random: &mut Random,
    hits: &mut Hits,
) -> Verdict {
    stretches(course, least).iter().try_for_each(|stretch| {
        let larger = random.between(4, 2 * stretch.fewest + 4);
        let places = [1, 2, 3, stretch.hardest_place(), larger];
        let mut places = places.into_iter();
        places.try_for_each(|place| check_wait(stretch, whose, place, hits))?;
        check_each_cell(stretch, whose, random, hits)?;
        check_paced(stretch, whose, random, hits)
    })
}

/// Holds the longest waits of the first in the queue to what is allowed, wherever frames have a cell.
pub fn check_first_waits(course: &Course, whose: Whose, hits: &mut Hits) -> Verdict {
    let mut stretches = stretches(course, 1).into_iter();
    stretches.try_for_each(|stretch| check_wait(&stretch, whose, 1, hits))
}

/// Holds the longest run with fewer than w cells to both bounds, and to what blocks allow.
fn check_wait(stretch: &Stretch, whose: Whose, w: u64, hits: &mut Hits) -> Verdict {
    let (k, m) = (stretch.k(), stretch.fewest);
    let run = stretch.longest_run(w);
    let slots = run.length as u64 + 1;
    let [allowed, demanded] =
        [Allowed::by_load(k, m), Allowed::demanded(k, m)].map(|allowed| allowed.longest(w));
    let waited = Waited {
        slots,
        allowed,
        m,
        w,
    };
    note_wait(k, waited, hits);
    let most = allowed.min(demanded).min(by_blocks(k, m, w));
    expect(u128::from(slots) <= most, || {
        let start = stretch.start + run.start;
        let run = Run { start, ..run };
        format!("{whose:?} with {m} cells or more in each frame has fewer than {w} in {run:?}: a wait of {slots} slots, and {most} are allowed")
    })
}

/// Counts a wait, and notes how near it came to what is allowed, but not where m is more than there are slots, as it can be for
/// the total: a wait of one slot, and none is shorter, is then often all that is allowed.
fn note_wait(k: u32, waited: Waited, hits: &mut Hits) {
    hits.add_at(WAIT_COMPARED, k);
    if waited.m > 1 << k {
        return;
    }
    let queued = if waited.w == 1 {
        Queued::First
    } else {
        Queued::Further
    };
    hits.wait(k, queued, waited);
    if u128::from(waited.slots) == waited.allowed {
        hits.add_at(WAIT_REACHED, k);
        if waited.w == 1 {
            hits.add_at(FIRST_WAIT_REACHED, k);
        }
    }
}

/// Runs a queue that is fed in bursts, with no more cells than the frames have; each must have left when its place says so.
pub fn check_each_cell(
    stretch: &Stretch,
    whose: Whose,
    random: &mut Random,
    hits: &mut Hits,
) -> Verdict {
    let (k, m) = (stretch.k(), stretch.fewest);
    let chain = stretch.given.len() as u64;
    let mut left = stretch.cells.len() as u64;
    let bursts = random_bursts(chain, stretch.slots, &[1, 3, m, 2 * m], random);
    let arrivals = bursts.into_iter().map(|cells| {
        let coming = cells.min(left);
        left -= coming;
        coming
    });
    let arrivals: Vec<u64> = arrivals.collect();
    let allowed = Allowed::by_load(k, m);
    hits.add_at(QUEUE_BY_CELLS, k);
    let mut waits = pass_each(stretch.given, &arrivals).into_iter();
    waits.try_for_each(|cell| {
        let most = allowed.longest(cell.place).min(by_blocks(k, m, cell.place));
        expect(u128::from(cell.slots) <= most, || {
            format!("a cell of {whose:?} with {m} cells or more in each frame: {cell:?}, and {most} slots are allowed")
        })
    })
}

/// Runs a queue that is fed as fast as it may be: every cell, whatever its place, must have left when the source's allowance says so.
pub fn check_paced(
    stretch: &Stretch,
    whose: Whose,
    random: &mut Random,
    hits: &mut Hits,
) -> Verdict {
    let (k, m) = (stretch.k(), stretch.fewest);
    let course = stretch.course();
    let source = random_source(&course, random);
    let waits = pass_each(&course.given, &source.arrivals(&course));
    let slots = waits.iter().map(|cell| cell.slots).max().unwrap_or(0);
    let allowed = paced_at_seams(k, m, course.largest_stray() as u64, source.ahead);
    hits.add_at(PACED_COMPARED, k);
    if slots > 0 && m <= 1 << k {
        let w = source.ahead;
        hits.wait(
            k,
            Queued::Paced,
            Waited {
                slots,
                allowed,
                m,
                w,
            },
        );
        if u128::from(slots) == allowed {
            hits.add_at(PACED_REACHED, k);
        }
    }
    expect(u128::from(slots) <= allowed, || {
        format!("a cell of {whose:?} with {m} cells or more in each frame, fed by {source:?}, waits {slots} slots, and {allowed} are allowed")
    })
}

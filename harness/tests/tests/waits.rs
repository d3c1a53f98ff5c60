//! The longest waits are reached on frames that the proved Build made.

use std::slice;

use calls::{Calls, Class, Library};
use loads::{load_alone, load_beside, SEAMS};
use reference::order::at_once;
use reference::queue::Source;
use reference::slots_each;
use reference::wait::{by_blocks, paced, pass_each, stretches, Allowed};
use reference::wire::{Course, Frame, Run};

const FLOW: Class = Class::Flow { number: 2 };

const PARTNER: Class = Class::Flow { number: 1 };

fn built(k: u32, list: [u16; 8]) -> Frame {
    let slots = 1 << k;
    let mut entries = vec![0xa5a5; 2 << k];
    let limits = slots_each(slots);
    let answer = Library::default().build(2, slots, &list, &limits, &mut entries);
    assert!(answer.is_ok(), "{answer:?}");
    Frame {
        ports: 2,
        slots,
        list: list.to_vec(),
        entries,
    }
}

/// What the two frames of a seam give the flow, where it has so many cells in each.
fn seam(k: u32, cells: u64) -> Course {
    let cells = cells as u16;
    let loads = [load_alone(cells), load_beside(1 << k, cells)];
    Course::of(&loads.map(|load| built(k, load)), FLOW)
}

/// The fewest cells of a frame, and the longest wait of the w-th in the queue; none where some frame has no cells.
fn longest(course: &Course, w: u64) -> Option<(u64, u128)> {
    let stretches = stretches(course, 1);
    let [stretch] = &stretches[..] else {
        return None;
    };
    let whole = stretch.given.len() == course.given.len();
    whole.then(|| (stretch.fewest, stretch.wait(w).into()))
}

/// In the run in which the flow falls furthest behind it has cells for all places before the w-th.
#[test]
fn the_longest_wait_of_both_bounds() {
    println!("  k  slots     m     w      wait   by load  (2k+1)/3");
    for of in SEAMS {
        let (k, m) = (of.k, u64::from(of.cells));
        let course = seam(k, m);
        let run = Run {
            start: of.turn,
            length: 2 * (of.slots as usize - of.turn),
        };
        let w = course.cells(run) as u64 + 1;
        let [by_load, demanded] =
            [Allowed::by_load(k, m), Allowed::demanded(k, m)].map(|allowed| allowed.longest(w));
        let found = longest(&course, w).expect("the flow has cells in both frames");
        let (slots, wait) = (of.slots, found.1);
        println!("{k:>3} {slots:>6} {m:>5} {w:>5} {wait:>9} {by_load:>9} {demanded:>9}");
        assert_eq!(found, (m, run.length as u128 + 1), "{of:?}");
        assert_eq!((wait, wait), (by_load, demanded), "{of:?}");
        assert_eq!(stretches(&course, 1)[0].hardest_place(), w, "{of:?}");
    }
}

/// Every k up to 10, and every m from 1 on that fits.
fn every_load() -> impl Iterator<Item = (u32, u64)> {
    (0..=10).flat_map(|k| (1..=1 << k).map(move |m| (k, m)))
}

/// With any m some place of the queue waits as long as the bound of the load allows.
#[test]
fn the_longest_wait_of_every_load() {
    for (k, m) in every_load() {
        let course = seam(k, m);
        let w = stretches(&course, 1)[0].hardest_place();
        let allowed = Allowed::by_load(k, m).longest(w);
        assert_eq!(longest(&course, w), Some((m, allowed)), "k = {k}, m = {m}");
    }
}

/// A source that sends evenly from where the flow begins to fall behind: on the two frames of a seam, the second carried twice, some
/// cell waits as long as any of such a source may, whatever m is. So it does where the source may be a whole cell ahead.
#[test]
fn the_longest_wait_of_an_even_source() {
    for (k, m) in every_load() {
        let beside = load_beside(1 << k, m as u16);
        let loads = [load_alone(m as u16), beside, beside];
        let course = Course::of(&loads.map(|load| built(k, load)), FLOW);
        let from = course.furthest_behind().start;
        for ahead in [at_once(k, 1), 1 << k] {
            let arrivals = Source { from, ahead }.arrivals(&course);
            let waits = pass_each(&course.given, &arrivals);
            let longest = waits.iter().map(|cell| cell.slots).max();
            let allowed = Some(paced(k, m, ahead));
            assert_eq!(longest.map(u128::from), allowed, "k = {k}, m = {m}");
        }
    }
}

/// With any m the two frames of a seam have the longest wait that there is of the first in a queue; for how many m it comes to all that
/// the load allows, and for which m the load allows the most times as long.
#[test]
fn the_longest_wait_of_the_first_in_the_queue() {
    println!("  k  slots  as long as allowed  furthest m     wait  allowed");
    for k in 0..=10 {
        let slots = 1_u64 << k;
        let wait = |m: u64| by_blocks(k, m, 1);
        let allowed = |m: u64| Allowed::by_load(k, m).longest(1);
        for m in 1..=slots {
            assert_eq!(longest(&seam(k, m), 1), Some((m, wait(m))), "k = {k}");
            assert!(wait(m) <= allowed(m), "k = {k}, m = {m}");
        }
        let equal = (1..=slots).filter(|&m| wait(m) == allowed(m)).count();
        let times = |m: u64| allowed(m) as f64 / wait(m) as f64;
        let by_times = |one: &u64, other: &u64| times(*one).total_cmp(&times(*other));
        let m = (1..=slots).rev().max_by(by_times).expect("a slot");
        let (wait, allowed) = (wait(m), allowed(m));
        println!("{k:>3} {slots:>6} {equal:>19} {m:>11} {wait:>8} {allowed:>8}");
    }
}

/// With a power of two for m each block of 2^i slots has one cell, in its first slot or in its last, and every place waits as long
/// as blocks allow.
#[test]
fn the_longest_wait_by_blocks_of_every_place() {
    for (k, j) in (0..=10).flat_map(|k| (0..=k).map(move |j| (k, j))) {
        let m = 1 << j;
        let course = seam(k, m);
        for w in 1..=m {
            assert_eq!(
                longest(&course, w),
                Some((m, by_blocks(k, m, w))),
                "{k}, {w}"
            );
        }
    }
}

/// Every frame of two ports whose first input has two flows of any cells, to an output each.
fn frames_of_one_input(k: u32) -> Vec<Frame> {
    let slots = 1_u16 << k;
    let lists = (0..=slots)
        .flat_map(|one| (0..=slots - one).map(move |other| [1, 1, one, 1, 1, 2, other, 1]));
    lists.map(|list| built(k, list)).collect()
}

/// Chains of two and of three of these frames.
fn chains(frames: &[Frame]) -> impl Iterator<Item = Vec<Frame>> + '_ {
    let of_two = frames.iter().flat_map(move |first| {
        frames
            .iter()
            .map(move |second| vec![first.clone(), second.clone()])
    });
    of_two.flat_map(move |chain| {
        let longer = frames
            .iter()
            .map(|third| [&chain[..], slice::from_ref(third)].concat());
        let longer: Vec<_> = longer.collect();
        [chain].into_iter().chain(longer)
    })
}

/// No chain of two or three frames of one input has a longer wait, and for each m some chain has one as long.
#[test]
fn no_longer_wait_on_any_short_chain() {
    for k in 0..=3 {
        let mut longest_by_cells = vec![0; (1 << k) + 1];
        for chain in chains(&frames_of_one_input(k)) {
            for class in [PARTNER, FLOW, Class::Input { port: 1 }] {
                let found = longest(&Course::of(&chain, class), 1);
                let Some((m, wait)) = found else { continue };
                let seen: &mut u128 = &mut longest_by_cells[m as usize];
                *seen = wait.max(*seen);
            }
        }
        let exact: Vec<u128> = (1..=1 << k).map(|m| by_blocks(k, m, 1)).collect();
        assert_eq!(longest_by_cells[1..], exact, "k = {k}");
    }
}

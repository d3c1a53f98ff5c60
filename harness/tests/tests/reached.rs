//! The bound of each load is reached, and with it the sharp bound of every k from 1 to 10, on frames that the proved Build made.

use calls::{Calls, Class, InC, Library, INPUT_SIDE};
use loads::{load_alone, load_beside, Seam, SEAMS};
use reference::queue::{ahead_behind_a_switch, pass, pass_row, Source, Switch};
use reference::slots_each;
use reference::stray::stray;
use reference::wire::{deviation, Course, Frame, Run};

const FLOW: Class = Class::Flow { number: 2 };

fn built(calls: &dyn Calls, slots: u64, list: [u16; 8]) -> Frame {
    let mut entries = vec![0xa5a5; 2 * slots as usize];
    let answer = calls.build(2, slots, &list, &slots_each(slots), &mut entries);
    assert!(answer.is_ok(), "{answer:?}");
    Frame {
        ports: 2,
        slots,
        list: list.to_vec(),
        entries,
    }
}

fn alone(seam: Seam) -> Frame {
    built(&Library::default(), seam.slots, seam.alone())
}

fn beside(seam: Seam) -> Frame {
    built(&Library::default(), seam.slots, seam.beside())
}

/// After how many slots of a frame the flow is furthest from its share.
fn edge(frame: &Frame) -> usize {
    let course = Course::of(std::slice::from_ref(frame), FLOW);
    course.furthest_from_a_frame().length
}

/// Every k up to 10, and every m that fits.
fn every_load() -> impl Iterator<Item = (u32, u64)> {
    (0..=10).flat_map(|k| (0..=1 << k).map(move |m| (k, m)))
}

/// The frame of a flow alone with m cells, and that of the flow behind one of the same input that has all other slots.
fn seam(calls: &dyn Calls, k: u32, m: u64) -> (Frame, Frame) {
    let slots = 1 << k;
    let [alone, beside] = [load_alone(m as u16), load_beside(slots, m as u16)];
    (built(calls, slots, alone), built(calls, slots, beside))
}

/// A flow alone has the earliest frame of its load, and behind one of the same input that has all other slots it has the latest: at
/// their seam, either way round, it is off by twice the stray of its load, which is as far as the load allows.
fn every_load_reaches_its_bound(calls: &dyn Calls) {
    for (k, m) in every_load() {
        let slots = 1 << k;
        let (alone, beside) = seam(calls, k, m);
        let bound = 2 * i128::from(stray(k, m));
        let edge = edge(&alone);
        let back = slots as usize - edge;
        let seams = [
            ([&alone, &beside], edge, 2 * back, -bound),
            ([&beside, &alone], back, 2 * edge, bound),
        ];
        for (frames, start, length, lead) in seams {
            let course = Course::of(&frames.map(Frame::clone), FLOW);
            let run = Run { start, length };
            assert_eq!(course.lead(run), lead, "k = {k}, m = {m}");
            assert!(course.has_its_share(run), "k = {k}, m = {m}");
            assert!(
                course.has_its_share(course.nearest_run()),
                "k = {k}, m = {m}"
            );
            let furthest = course.lead(course.furthest_run());
            assert_eq!(furthest.abs(), bound, "k = {k}, m = {m}");
        }
    }
}

#[test]
fn every_load_through_rust() {
    every_load_reaches_its_bound(&Library::default());
}

#[test]
fn every_load_through_c() {
    every_load_reaches_its_bound(&InC::default());
}

/// The run from slot t of the first frame to slot 2^k - t of the second, and what the seam's two frames give the flow.
fn behind(seam: Seam) -> (Run, Course) {
    let run = Run {
        start: seam.turn,
        length: 2 * (seam.slots as usize - seam.turn),
    };
    (run, Course::of(&[alone(seam), beside(seam)], FLOW))
}

#[test]
fn behind_by_the_whole_bound() {
    for seam in SEAMS {
        let (run, course) = behind(seam);
        let parts = u128::from(seam.slots) * course.cells(run);
        let missing = course.share(run) - parts;
        assert_eq!(missing as i128, 2 * deviation(seam.k), "{seam:?}");
        assert_eq!(course.furthest_run(), run, "{seam:?}");
        assert!(course.has_its_share(run), "{seam:?}");
    }
}

#[test]
fn ahead_by_the_whole_bound() {
    for seam in SEAMS {
        let course = Course::of(&[beside(seam), alone(seam)], FLOW);
        let run = Run {
            start: seam.slots as usize - seam.turn,
            length: 2 * seam.turn,
        };
        assert_eq!(course.lead(run), 2 * deviation(seam.k), "{seam:?}");
    }
}

#[test]
fn half_of_it_from_the_beginning_of_a_frame() {
    for seam in SEAMS {
        let slots = seam.slots as usize;
        let cases = [
            (alone(seam), seam.turn, deviation(seam.k)),
            (beside(seam), slots - seam.turn, -deviation(seam.k)),
        ];
        for (frame, length, lead) in cases {
            let run = Run { start: 0, length };
            assert_eq!(Course::of(&[frame], FLOW).lead(run), lead, "{seam:?}");
        }
    }
}

/// The flow's cells and leads by Service count, on each frame of the seam by itself.
#[test]
fn the_same_by_service_count() {
    for seam in SEAMS {
        let (run, course) = behind(seam);
        let slots = seam.slots;
        let (turn, back) = (seam.turn as u64, slots - seam.turn as u64);
        let count = |frame: Frame, start, length| {
            let (list, entries, question) = (&frame.list, &frame.entries, (FLOW, (start, length)));
            Library::default().service_count(INPUT_SIDE, 2, slots, list, entries, question)
        };
        let first = count(alone(seam), turn + 1, back).unwrap();
        let second = count(beside(seam), 1, back).unwrap();
        let cells = u128::from(first.cells + second.cells);
        assert_eq!(cells, course.cells(run), "{seam:?}");
        let leads = [first.lead, second.lead].map(i128::from);
        assert_eq!(leads, [-deviation(seam.k); 2], "{seam:?}");
    }
}

/// A source that begins with the run in which the flow falls furthest behind, and may be ahead by what fills up the last cell.
#[test]
fn queues_as_deep_as_allowed() {
    for (k, m) in every_load() {
        let (alone, beside) = seam(&Library::default(), k, m);
        let course = Course::of(&[alone, beside], FLOW);
        let from = course.furthest_behind().start;
        let slots = 1_u64 << k;
        let depth = |parts: u64| {
            let ahead = slots + parts.next_multiple_of(slots) - parts;
            let arrivals = Source { from, ahead }.arrivals(&course);
            pass(&course, &arrivals).depth(ahead)
        };
        assert_eq!(depth(2 * stray(k, m)).after, 0, "k = {k}, m = {m}");
        assert_eq!(depth(2 * stray(k, m) + m).before, 0, "k = {k}, m = {m}");
    }
}

/// In the run in which the first switch gets furthest ahead the second falls furthest behind; for larger k the two are not
/// of one length, whatever whole frames are put between.
#[test]
fn rows_as_deep_as_allowed() {
    for seam in &SEAMS[..2] {
        let (slots, turn) = (seam.slots as usize, seam.turn);
        let (alone, beside) = (&alone(*seam), &beside(*seam));
        let switch = |frames: [&Frame; 3], delay| Switch {
            course: Course::of(&frames.map(Frame::clone), FLOW),
            delay,
        };
        // The one run ends in slot t of its last frame, the other in slot 2^k - t.
        let row = [
            switch([beside, beside, alone], 0),
            switch([alone, alone, beside], slots - 2 * turn),
        ];
        let mut arrivals = vec![0; 3 * slots];
        arrivals[slots - turn] = 3 * seam.slots;
        let second = &pass_row(&row, &arrivals)[1];
        let depth = second.depth(ahead_behind_a_switch(seam.k, seam.cells.into()));
        assert_eq!(depth.after, 0, "{seam:?}");
    }
}

//! The bound of each load on chains, held to its definition; frames that keep to what is allowed whatever the load and break it.

mod balanced;

use loads::Random;
use reference::queue::{pass, pass_card, Source};
use reference::stray::stray;
use reference::wire::{demanded, deviation, Course, Run, Slot};

/// A chain of frames, each as the cells of its slots, the load being their sum.
fn course(frames: &[&[u64]]) -> Course {
    let given = frames.iter().flat_map(|cells| {
        let load = cells.iter().sum();
        cells.iter().map(move |&cells| Slot { load, cells })
    });
    Course {
        slots: frames[0].len() as u64,
        given: given.collect(),
    }
}

/// Every run of a chain, those of no slots too.
fn every_run(course: &Course) -> impl Iterator<Item = Run> {
    let slots = course.given.len();
    (0..=slots).flat_map(move |start| {
        let lengths = 0..=slots - start;
        lengths.map(move |length| Run { start, length })
    })
}

/// A run is within the strays of the loads of the frames that its ends are in, and an end between two frames is off in neither.
#[test]
fn the_bound_of_a_run_by_its_definition() {
    let course = course(&[&[1, 0, 0, 0, 0, 0, 0, 0], &[1, 0, 1, 0, 1, 0, 0, 0]]);
    let [one, three] = [1, 3].map(|m| i128::from(stray(3, m)));
    assert_eq!([one, three], [7, 9]);
    for (start, length, bound) in [
        (0, 1, one),
        (1, 6, 2 * one),
        (1, 7, one),
        (1, 8, one + three),
        (7, 1, one),
        (8, 5, three),
        (9, 2, 2 * three),
        (9, 7, three),
        (0, 8, 0),
        (8, 8, 0),
        (0, 16, 0),
        (5, 0, 2 * one),
    ] {
        assert_eq!(
            course.bound(Run { start, length }),
            bound,
            "{start} {length}"
        );
    }
    assert_eq!(course.largest_stray(), three);
    assert_eq!(
        [0, 7, 8, 15].map(|slot| course.stray_at(slot)),
        [one, one, three, three]
    );
}

/// All chains of two balanced frames, all runs: none is beyond its bound, and for each two loads some run across the seam comes to it,
/// ahead and behind.
#[test]
fn every_chain_of_two_short_frames() {
    for k in 0..=3 {
        let frames = (0..=1 << k).flat_map(|m| balanced::frames(k, m));
        let frames: Vec<_> = frames.collect();
        let mut reached = [[[false; 2]; 9]; 9];
        for (one, other) in frames
            .iter()
            .flat_map(|one| frames.iter().map(move |other| (one, other)))
        {
            let course = course(&[one, other]);
            let seam = 1 << k;
            for run in every_run(&course) {
                assert!(course.has_its_share(run), "{course:?} {run:?}");
                let end = run.start + run.length;
                if 0 < run.start && run.start < seam && seam < end && end < 2 * seam {
                    let loads = [0, seam].map(|slot| course.given[slot].load as usize);
                    let (lead, bound) = (course.lead(run), course.bound(run));
                    let found = &mut reached[loads[0]][loads[1]];
                    found[0] |= lead == -bound;
                    found[1] |= lead == bound;
                }
            }
        }
        let loads = (0..=1 << k).flat_map(|one| (0..=1 << k).map(move |other| (one, other)));
        for (one, other) in loads.filter(|_| k > 0) {
            assert_eq!(
                reached[one][other], [true; 2],
                "k = {k}, {one} and {other} cells"
            );
        }
    }
}

/// A chain of frames with any cells, which are not always the load.
fn random_course(random: &mut Random) -> Course {
    let slots = 1 << random.between(0, 4);
    let frames = random.between(1, 4);
    let given = (0..frames).flat_map(|_| {
        let load = random.between(0, slots);
        let most = random.pick(&[1, 1, 2]);
        let cells: Vec<u64> = (0..slots).map(|_| random.between(0, most)).collect();
        cells.into_iter().map(move |cells| Slot { load, cells })
    });
    let given = given.collect();
    Course { slots, given }
}

/// How far beyond its bound a run is.
fn beyond(course: &Course, run: Run) -> i128 {
    course.lead(run).abs() - course.bound(run)
}

#[test]
fn the_nearest_of_all_runs() {
    let mut random = Random::new(2_033);
    for _ in 0..400 {
        let course = random_course(&mut random);
        let most = every_run(&course).map(|run| beyond(&course, run)).max();
        assert_eq!(
            Some(beyond(&course, course.nearest_run())),
            most,
            "{course:?}"
        );

        let off = |slot: usize| {
            course.bound(Run {
                start: slot,
                length: 0,
            }) > 0
        };
        let both = every_run(&course).filter(|run| off(run.start) && off(run.start + run.length));
        let most = both.map(|run| beyond(&course, run)).max();
        let nearest = course.nearest_off_at_both();
        assert_eq!(most.unwrap_or(0), beyond(&course, nearest), "{course:?}");

        let breaks = |run: Run| course.has_its_share(run) && !course.total_has_its_share(run);
        let kept = every_run(&course).all(|run| course.has_its_share(run));
        if kept {
            let broken = every_run(&course).any(breaks);
            assert_eq!(breaks(course.nearest_of_total()), broken, "{course:?}");
        }
    }
}

/// After each slot what the source is ahead, the largest stray of the chain and the stray of the slot's own load may wait, and before its
/// cells leave the slot's share more.
#[test]
fn queues_at_seams_by_their_definition() {
    let mut random = Random::new(2_034);
    for _ in 0..400 {
        let course = random_course(&mut random);
        let arrivals: Vec<u64> = course.given.iter().map(|_| random.below(3)).collect();
        let ahead = random.between(0, 3 * course.slots);
        let strays = course.given.iter().map(|slot| stray(course.k(), slot.load));
        let strays: Vec<i128> = strays.map(i128::from).collect();
        let largest = strays.iter().max().expect("a slot");
        let (mut waiting, mut after, mut before) = (0, Vec::new(), Vec::new());
        for ((slot, arrived), stray) in course.given.iter().zip(&arrivals).zip(&strays) {
            let allowed = i128::from(ahead) + largest + stray;
            let parts = |cells: u64| i128::from(cells * course.slots);
            before.push(parts(waiting + arrived) - allowed - i128::from(slot.load));
            waiting = (waiting + arrived).saturating_sub(slot.cells);
            after.push(parts(waiting) - allowed);
        }
        let depth = pass(&course, &arrivals).depth(ahead);
        assert_eq!(Some(&depth.after), after.iter().max(), "{course:?}");
        // Before any cell comes the queue is empty.
        before.push(-i128::from(ahead) - 2 * largest);
        assert_eq!(Some(&depth.before), before.iter().max(), "{course:?}");
    }
}

/// Whether every run keeps to what is allowed whatever the load: demand 3 and the sharp bound.
fn keeps_for_any_load(course: &Course) -> bool {
    let (lead, k) = (course.lead(course.furthest_run()).abs(), course.k());
    let from_a_frame = course.lead(course.furthest_from_a_frame()).abs();
    3 * lead <= demanded(k) && lead <= 2 * deviation(k) && from_a_frame <= deviation(k)
}

/// Half of the slots, two at a time: they may be half a cell off at each end, and are a whole one.
fn two_at_a_time(k: u32) -> Course {
    let early = [1, 1, 0, 0].repeat(1 << (k - 2));
    let late = [0, 0, 1, 1].repeat(1 << (k - 2));
    course(&[&early, &late, &early])
}

#[test]
fn two_cells_at_a_time_break_the_bound_of_their_load_alone() {
    for k in 4..=10 {
        let course = two_at_a_time(k);
        assert!(keeps_for_any_load(&course), "k = {k}");
        let run = course.nearest_run();
        assert!(!course.has_its_share(run), "k = {k}");
        assert!(course.lead(run).abs() > course.bound(run), "k = {k}");
    }
}

/// Their queue stands too deep too, that of an input and that at the card of a link.
#[test]
fn two_cells_at_a_time_stand_too_deep() {
    let beyond = |course: &Course| {
        let from = course.furthest_behind().start;
        let source = Source { from, ahead: 16 };
        let input = pass(course, &source.arrivals(course)).depth(source.ahead);
        [input, pass_card(course, 8, 0)].map(|depth| depth.after.max(depth.before))
    };
    let even = [1, 0].repeat(8);
    let [input, card] = beyond(&course(&[&even, &even, &even]));
    assert!(input <= 0 && card <= 0, "{input} {card}");
    let [input, card] = beyond(&two_at_a_time(4));
    assert!(input > 0 && card > 0, "{input} {card}");
}

/// Cells that a frame has early are its total's as Build lays them; read backwards, the frame is as balanced and no total of Build's.
#[test]
fn a_total_that_is_late() {
    let early = [1, 0, 1, 0, 1, 0, 0, 0];
    let mut late = early;
    late.reverse();
    for (frame, built) in [(early, true), (late, false)] {
        let course = course(&[&frame, &frame]);
        assert!(every_run(&course).all(|run| course.has_its_share(run)));
        assert_eq!(course.total_has_its_share(course.nearest_of_total()), built);
    }
}

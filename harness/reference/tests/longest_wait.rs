//! The longest waits and the queue cell by cell, held to their definitions.

use loads::{load_alone, load_beside, Random};
use reference::queue::pass;
use reference::stray::stray;
use reference::wait::{
    by_blocks, paced, paced_at_seams, pass_each, stretches, Allowed, Stretch, Wait,
};
use reference::wire::{demanded, Course, Frame, Run, Slot};
use reference::Class;

/// A length is enough by the bound of the load, and by demand 3, exactly where the inequality of each says so.
#[test]
fn least_lengths_by_their_inequalities() {
    for k in 0..=10 {
        let (slots, demand) = (1_i128 << k, demanded(k));
        let cases = (1..=1 << k).flat_map(|m| [1, 2, 3, 449, 100_000].map(|w| (m, w)));
        for (m, w) in cases {
            let before = slots * i128::from(w - 1);
            let [by_load, by_demand] = [Allowed::by_load(k, m), Allowed::demanded(k, m)]
                .map(|allowed| allowed.longest(w) as i128);
            let strays = 2 * i128::from(stray(k, m));
            let m = i128::from(m);
            let enough = |length: i128| length * m > strays + before;
            assert!(enough(by_load) && !enough(by_load - 1), "{k}, {m}, {w}");
            let enough = |length: i128| 3 * length * m > demand + 3 * before;
            assert!(enough(by_demand) && !enough(by_demand - 1), "{k}, {m}, {w}");
            assert!(by_load <= by_demand, "{k}, {m}, {w}");
        }
    }
}

/// The same of a source that may be ahead by any number of parts of a cell, with one load and with loads that stray further.
#[test]
fn least_lengths_of_a_paced_queue() {
    for k in 0..=10 {
        let slots = 1_i128 << k;
        let cases = (1..=1 << k).flat_map(|m| [0, 1, 3, 1 << k, 5 << k].map(|ahead| (m, ahead)));
        for (m, ahead) in cases {
            let own = stray(k, m);
            assert_eq!(paced(k, m, ahead), paced_at_seams(k, m, own, ahead));
            for furthest in [own, own + 7] {
                let least = paced_at_seams(k, m, furthest, ahead) as i128;
                let waiting = i128::from(ahead + 2 * furthest);
                let enough = |length: i128| waiting < length * i128::from(m) + slots;
                assert!(enough(least), "{k}, {m}, {ahead}");
                assert!(least == 0 || !enough(least - 1), "{k}, {m}, {ahead}");
            }
        }
    }
}

#[test]
fn numbers_of_any_size() {
    let most = u64::MAX;
    assert_eq!(Allowed::by_load(10, 1).longest(1), 2_047);
    let longest = Allowed::by_load(10, 1).longest(most);
    assert_eq!(longest, 2_047 + 1_024 * u128::from(most - 1));
    assert_eq!(Allowed::demanded(10, most).longest(most), 1_025);
    assert_eq!(by_blocks(10, most, 1), 1);
    assert_eq!(by_blocks(10, 1, most), 1_024 * (u128::from(most) + 1) - 1);
}

#[test]
fn at_the_head_no_more_than_the_load_allows() {
    for k in 0..=10 {
        for m in 1..=1 << k {
            let by_load = Allowed::by_load(k, m).longest(1);
            assert!(by_blocks(k, m, 1) <= by_load, "{k}, {m}");
        }
        assert_eq!(by_blocks(k, 1, 1), (2 << k) - 1, "one cell in a frame");
        assert_eq!(by_blocks(k, 1, 2), (3 << k) - 1, "one cell in a frame");
        assert_eq!(by_blocks(k, 1 << k, 1), 1, "a cell in every slot");
        assert_eq!(by_blocks(k, 1 << k, 7), 7, "a cell in every slot");
    }
}

/// The seam of two slots, entry by entry: slots 2 and 3 of the four have no cell of the flow.
#[test]
fn the_seam_of_two_slots() {
    let frame = |entries: [u16; 4], list: [u16; 8]| Frame {
        ports: 2,
        slots: 2,
        list: list.to_vec(),
        entries: entries.to_vec(),
    };
    let chain = [
        frame([2, 0, 0, 0], load_alone(1)),
        frame([1, 0, 2, 0], load_beside(2, 1)),
    ];
    let course = Course::of(&chain, Class::Flow { number: 2 });
    let stretch = only_stretch(&course, 1);
    assert_eq!((stretch.fewest, &stretch.cells[..]), (1, &[0, 3][..]));
    let run = |start, length| Run { start, length };
    let runs = [1, 2, 3].map(|w| stretch.longest_run(w));
    assert_eq!(runs, [run(1, 2), run(0, 3), run(0, 4)]);
    assert_eq!((stretch.wait(1), stretch.hardest_place()), (3, 1));
    let allowed = [Allowed::by_load(1, 1), Allowed::demanded(1, 1)];
    assert_eq!(allowed.map(|allowed| allowed.longest(1)), [3, 3]);
    assert_eq!(by_blocks(1, 1, 1), 3);
}

/// The one stretch of a chain.
fn only_stretch(course: &Course, least: u64) -> Stretch<'_> {
    let stretches = stretches(course, least);
    let [stretch] = &stretches[..] else {
        panic!("{} stretches", stretches.len());
    };
    stretch.clone()
}

/// A course of one slot after the other.
fn course(slots: u64, cells: &[u64]) -> Course {
    let given = cells.iter().map(|&cells| Slot { load: 0, cells });
    Course {
        slots,
        given: given.collect(),
    }
}

#[test]
fn stretches_end_where_a_frame_has_too_few() {
    let course = course(2, &[1, 0, 1, 1, 0, 0, 0, 1, 2, 1, 0, 0]);
    let found = |least| {
        let stretches = stretches(&course, least).into_iter();
        let found = stretches.map(|stretch| (stretch.start, stretch.given.len(), stretch.fewest));
        found.collect::<Vec<_>>()
    };
    assert_eq!(found(1), [(0, 4, 1), (6, 4, 1)]);
    assert_eq!(found(2), [(2, 2, 2), (8, 2, 3)]);
    assert_eq!(found(3), [(8, 2, 3)]);
    assert_eq!(found(4), []);
}

/// Frames in which every slot has up to so many cells, often none, the first of each one or more.
fn random_course(random: &mut Random) -> Course {
    let slots = 1 << random.between(0, 4);
    let (most, gap) = (random.pick(&[1, 1, 3]), random.pick(&[1, 2, 5]));
    let cells = (0..slots * random.between(1, 4)).map(|slot| {
        let none = slot % slots > 0 && !random.one_in(gap);
        if none {
            0
        } else {
            random.between(1, most)
        }
    });
    course(slots, &cells.collect::<Vec<_>>())
}

/// The longest run with fewer than w cells, by looking at every run.
fn longest_of_all(course: &Course, w: u64) -> usize {
    let slots = course.given.len();
    let runs = (0..=slots).flat_map(|start| {
        let lengths = 0..=slots - start;
        lengths.map(move |length| Run { start, length })
    });
    let few = runs.filter(|&run| course.cells(run) < u128::from(w));
    few.map(|run| run.length).max().expect("no slots are a run")
}

#[test]
fn the_longest_of_all_runs() {
    let mut random = Random::new(2_029);
    for _ in 0..300 {
        let course = random_course(&mut random);
        let stretch = only_stretch(&course, 1);
        for w in [1, 2, 3, random.between(1, 70)] {
            let run = stretch.longest_run(w);
            assert!(course.cells(run) < u128::from(w), "{course:?}, {w}");
            let longest = longest_of_all(&course, w);
            assert_eq!(run.length, longest, "{course:?}, {w}");
            assert_eq!(stretch.wait(w), longest as u64 + 1);
        }
    }
}

/// At the hardest place the wait is nearest to m slots' shares behind: no other place lacks more.
#[test]
fn the_hardest_place_of_all() {
    let mut random = Random::new(2_030);
    for _ in 0..300 {
        let course = random_course(&mut random);
        let stretch = only_stretch(&course, 1);
        let lacking = |w: u64| {
            let (length, before) = (stretch.wait(w) - 1, stretch.slots * (w - 1));
            (length * stretch.fewest) as i64 - before as i64
        };
        let most = (1..=stretch.cells.len() as u64 + 1).map(lacking).max();
        assert_eq!(Some(lacking(stretch.hardest_place())), most, "{course:?}");
    }
}

/// Cells that come just before the longest run, so many that w are left when it begins: the last of them waits as long as any.
#[test]
fn the_last_of_w_cells_waits_for_the_longest_run() {
    let mut random = Random::new(2_031);
    let mut waited = 0;
    for _ in 0..300 {
        let course = random_course(&mut random);
        let stretch = only_stretch(&course, 1);
        let w = random.between(1, 6);
        let run = stretch.longest_run(w);
        let Some(before) = run.start.checked_sub(1) else {
            continue;
        };
        let mut arrivals = vec![0; course.given.len()];
        arrivals[before] = w + course.given[before].cells;
        let last = Wait {
            place: w,
            slots: stretch.wait(w),
        };
        let waits = pass_each(&course.given, &arrivals);
        assert_eq!(waits.last(), Some(&last), "{course:?}, {w}");
        waited += 1;
    }
    assert!(waited > 100, "{waited} runs begin after a cell");
}

/// Cells and slots: each slot adds one to the wait of every cell that waits after it.
#[test]
fn cells_wait_as_long_as_they_are_counted() {
    let mut random = Random::new(2_032);
    for _ in 0..300 {
        let course = random_course(&mut random);
        let burst = |_: &Slot| random.below(2) * random.below(4);
        let arrivals: Vec<u64> = course.given.iter().map(burst).collect();
        let waits = pass_each(&course.given, &arrivals);
        let passed = pass(&course, &arrivals);
        let waiting = arrivals.iter().zip(&passed.sent);
        let waiting = waiting.scan(0, |queue, (arrived, sent)| {
            *queue = *queue + arrived - sent;
            Some(*queue)
        });
        let waiting: Vec<u64> = waiting.collect();
        let slots: u64 = waits.iter().map(|cell| cell.slots).sum();
        assert_eq!(slots, waiting.iter().sum::<u64>(), "{course:?}");
        assert_eq!(waits.len() as u64, arrivals.iter().sum::<u64>());
        let places = waits.iter().map(|cell| cell.place);
        assert!(places.max() <= waiting.iter().max().copied());
        let at_once = waits
            .iter()
            .all(|cell| (cell.place == 0) == (cell.slots == 0));
        assert!(at_once, "{waits:?}");
    }
}

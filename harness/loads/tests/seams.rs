//! The table of seams, held to the recurrences it is found by.

use loads::{flows_of, Company, Flow, Followed, Random, Seam, Shape, MOST_FLOWS, SEAMS};
use reference::wire::deviation;

/// The cells of the whole frame, from the last block of the path up.
fn cells(k: u32) -> u16 {
    (0..k - 1).rev().fold(1, |cells, depth| {
        if depth % 2 == 0 {
            2 * cells - 1
        } else {
            2 * cells + 1
        }
    })
}

/// The last middle of the path.
fn turn(k: u32) -> usize {
    (1..k).fold(1, |turn, k| (1 << k) - turn)
}

#[test]
fn table() {
    for (k, seam) in (1..).zip(SEAMS) {
        let found = Seam {
            k,
            slots: 1 << k,
            cells: cells(k),
            turn: turn(k),
            deviation: deviation(k),
        };
        assert_eq!(seam, found);
        assert_eq!(Seam::of_slots(1 << k), Some(seam));
    }
    assert_eq!(Seam::of_slots(1), None);
}

#[test]
fn flows_keep_their_number_and_cells_in_loads_that_fit() {
    let mut random = Random::new(17);
    let [mut last, mut first] = [0; 2];
    for _ in 0..2_000 {
        let shape = loads::random_shape(&mut random);
        let cells = random.between(1, shape.slots as u64) as u16;
        let flow = Followed::random(cells, &mut random);
        let company = random.pick(Company::ALL);
        let call = flow.load(company, shape, &mut random);
        let flows = flows_of(&call.list);
        assert_eq!(flows[flow.number - 1].cells, cells, "{company:?}");
        let answer = reference::admit(call.ports, call.slots, &call.list, &call.limits);
        assert_eq!(answer, Ok(()), "{company:?}");
        let before = &flows[..flow.number - 1];
        last += usize::from(flow.number == MOST_FLOWS);
        first += usize::from(before.iter().all(|other| other.cells == 0));
    }
    assert!(last > 0 && first > 300, "{last} {first}");
}

#[test]
fn a_partner_has_the_other_slots_and_comes_first() {
    let mut random = Random::new(19);
    let shape = Shape {
        ports: 4,
        slots: 16,
    };
    for _ in 0..200 {
        let followed = Followed::random(5, &mut random);
        let load = followed.load(Company::Partner, shape, &mut random);
        let flows = flows_of(&load.list);
        let place = followed.number - 1;
        let flow = flows[place];
        let joined = |other: &Flow| other.input == flow.input || other.output == flow.output;
        let others = (0..flows.len()).filter(|&other| other != place && flows[other].cells > 0);
        let others: Vec<usize> = others.filter(|&other| joined(&flows[other])).collect();
        let [partner] = others[..] else {
            panic!("{others:?} beside {flow:?}");
        };
        assert!(partner < place);
        assert_eq!(flows[partner].cells, 11);
    }
}

#[test]
fn other_cells_leave_a_slot_to_the_partner() {
    let mut random = Random::new(23);
    for seam in SEAMS {
        let drawn = [(); 500].map(|()| u64::from(seam.other_cells(&mut random)));
        let fits = |&cells: &u64| 0 < cells && cells < seam.slots;
        assert!(drawn.iter().all(fits), "{seam:?}");
        let half = (seam.slots / 2).max(2) - 1;
        let powers = (1..=seam.k).map(|power| (1 << power) - 1);
        for cells in powers.chain([half]) {
            assert!(drawn.contains(&cells), "{cells} cells, {seam:?}");
        }
    }
}

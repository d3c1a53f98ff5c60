//! Rows of switches: a flow, or all cells together, pass from one to the next, each with a chain of frames of its own.

use calls::Calls;
use loads::{load_of_total, Call, Company, Followed, Random, Seam, Shape};
use reference::queue::{ahead_behind_a_switch, pass_row, Switch};
use reference::wire::{Course, Frame, Whose};

use crate::build_case::{build_and_compare, lend, over_links, wire_frame};
use crate::hits::Hits;
use crate::queue_case::random_bursts;
use crate::share_case::class_of;
use crate::verdict::{expect, Verdict};

/// Who passes along a row.
#[derive(Clone, Copy)]
enum Passing {
    /// One flow. Where it strays, the loads are those of a seam at its ports, so that it does so as far as it can.
    Flow { strays: bool },
    /// All cells, where every switch has so many ports or more.
    Total { ports: usize },
}

/// What all switches of a row have in common.
struct Row {
    passing: Passing,
    slots: usize,
    /// The cells that pass in every frame.
    cells: usize,
    /// The frames that each switch carries.
    frames: usize,
}

/// Who is counted in one switch of a row.
#[derive(Clone, Copy)]
enum Counted {
    Flow { flow: Followed, strays: bool },
    Total,
}

/// Sends a flow, or all cells, along a row of two to five switches; all but the first must hold them.
pub fn check_row(candidate: &dyn Calls, random: &mut Random, hits: &mut Hits) -> Verdict {
    let row = Row::random(random);
    let switches: Vec<Switch> = (0..random.between(2, 5))
        .map(|_| row.switch(candidate, random, hits))
        .collect::<Result<_, _>>()?;
    hits.add(format!("row of {} switches", switches.len()));
    if matches!(row.passing, Passing::Total { .. }) {
        hits.add("row of all cells together");
    }
    let passed = pass_row(&switches, &row.arrivals(random));
    let k = row.slots.trailing_zeros();
    for (place, passed) in (1..).zip(passed).skip(1) {
        let depth = passed.depth(ahead_behind_a_switch(k, row.cells as u64));
        hits.deepen(k, place, i128::from(row.slots as u64 * passed.waiting));
        expect(depth.after <= 0 && depth.before <= 0, || {
            let (cells, slots) = (row.cells, row.slots);
            format!("{cells} cells in {slots} slots stand too deep in switch {place}: {depth:?}")
        })?;
    }
    Ok(())
}

impl Row {
    fn random(random: &mut Random) -> Row {
        let slots = 1 << random.between(0, 10);
        let (passing, cells) = if random.one_in(3) {
            let ports = random.pick(&[1, 2, 3, 4, 16]);
            let cells = random.between(1, (ports * slots) as u64);
            (Passing::Total { ports }, cells)
        } else {
            let any = random.between(1, slots as u64);
            let seam = Seam::of_slots(slots).filter(|_| random.one_in(2));
            let strays = seam.is_some();
            let cells = seam.map_or(any, |seam| u64::from(seam.cells));
            (Passing::Flow { strays }, cells)
        };
        Row {
            passing,
            slots,
            cells: cells as usize,
            frames: random.between(2, 8) as usize,
        }
    }

    /// What comes to the first switch: as it likes, and now and then more than it can send.
    fn arrivals(&self, random: &mut Random) -> Vec<u64> {
        let chain = (self.frames * self.slots) as u64;
        let numbers = [1, 3, self.cells as u64, chain];
        random_bursts(chain, self.slots as u64, &numbers, random)
    }

    /// A switch with its own ports and chain; what comes to it is a few slots late, or up to a frame.
    fn switch(
        &self,
        candidate: &dyn Calls,
        random: &mut Random,
        hits: &mut Hits,
    ) -> Result<Switch, String> {
        let ports = random.pick(&[1, 2, 2, 2, 2, 3, 3, 4, 4, 5, 6, 16]);
        let least = match self.passing {
            Passing::Flow { .. } => 1,
            Passing::Total { ports } => ports,
        };
        let shape = Shape {
            ports: ports.max(least),
            slots: self.slots,
        };
        let counted = self.counted(random);
        let chain = self.chain(candidate, counted, shape, random, hits)?;
        let latest = random.pick(&[5, 5, 5, self.slots as u64]);
        Ok(Switch {
            course: Course::of(&chain, counted.whose()),
            delay: random.between(0, latest) as usize,
        })
    }

    /// The total, or a flow with some number at the switch.
    fn counted(&self, random: &mut Random) -> Counted {
        match self.passing {
            Passing::Flow { strays } => Counted::Flow {
                flow: Followed::random(self.cells as u16, random),
                strays,
            },
            Passing::Total { .. } => Counted::Total,
        }
    }

    /// Frames that all have the cells that pass, each carried once or more.
    fn chain(
        &self,
        candidate: &dyn Calls,
        counted: Counted,
        shape: Shape,
        random: &mut Random,
        hits: &mut Hits,
    ) -> Result<Vec<Frame>, String> {
        let mut buffer = lend(&random.entries(shape.frame_length()), random);
        let mut chain = Vec::new();
        while chain.len() < self.frames {
            let call = over_links(counted.load(shape, self.cells, random), random);
            let answer = build_and_compare(candidate, &call, &mut buffer, random, hits)?;
            expect(answer.is_ok(), || format!("{call:?} refused"))?;
            let times = random.between(1, 3) as usize;
            let frame = wire_frame(&call, buffer.part());
            chain.extend(std::iter::repeat_n(frame, times));
        }
        chain.truncate(self.frames);
        Ok(chain)
    }
}

impl Counted {
    fn whose(self) -> Whose {
        match self {
            Counted::Flow { flow, .. } => Whose::Class(class_of(flow)),
            Counted::Total => Whose::Total,
        }
    }

    /// A load that fits, with so many cells of those that are counted.
    fn load(self, shape: Shape, cells: usize, random: &mut Random) -> Call {
        match self {
            Counted::Flow { flow, strays } => {
                let company = match strays {
                    true => random.pick(&[Company::Nobody, Company::Partner]),
                    false => random.pick(Company::ALL),
                };
                flow.load(company, shape, random)
            }
            Counted::Total => load_of_total(shape, cells, random),
        }
    }
}

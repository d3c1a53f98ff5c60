//! How far classes, links and the total stray from their share on a chain.

use calls::Class;
use loads::{Followed, Random};
use reference::stray::stray;
use reference::wire::{self, deviation, Course, Frame, Run, Whose};
use reference::LINKS;

use crate::hits::{Hits, Used, BOUND_COMPARED, BOUND_REACHED, RUN_REACHED, TOTAL_REACHED};
use crate::verdict::{expect, Verdict};

/// Fails where the frames are of several shapes.
pub fn expect_chain(chain: &[Frame]) -> Verdict {
    expect(wire::is_chain(chain), || "frames of several shapes".into())
}

/// Holds every run of a chain of built frames to its bounds, and once more any run and the furthest that begins with a frame. The
/// total is ahead only by what a run ends in, and behind only by what it begins in: its extra cell always goes to the first half.
pub fn check_share(course: &Course, whose: Whose, random: &mut Random, hits: &mut Hits) -> Verdict {
    expect_every_run(course, whose)?;
    for run in [random_run(course, random), course.furthest_from_a_frame()] {
        expect_share(course, whose, run)?;
    }
    let (lead, k) = (course.lead(course.furthest_run()).abs(), course.k());
    if lead == 2 * deviation(k) {
        hits.add_at(RUN_REACHED, k);
    }
    if whose == Whose::Total {
        expect_total(course)?;
        if lead == deviation(k) {
            hits.add_at(TOTAL_REACHED, k);
        }
    }
    Ok(())
}

/// Fails where some run is too far from its share: the furthest of all by demand 3, or the one nearest to its bound by that.
pub fn expect_every_run(course: &Course, whose: Whose) -> Verdict {
    expect_share(course, whose, course.furthest_run())?;
    expect_share(course, whose, course.nearest_run())
}

/// Fails where some run of all cells of built frames is too far from its share.
pub fn expect_total(course: &Course) -> Verdict {
    let run = course.nearest_of_total();
    expect(course.total_has_its_share(run), || {
        let lead = course.lead(run);
        format!("the total of built frames strays by {lead} parts in {run:?}")
    })
}

/// Holds a chain to the fewest and to the most cells that its frames have, and to the powers of two below and above: where every frame
/// has m cells or more, a run lacks at most twice the stray of m of its share of m a frame, and where every frame has at most m, it has
/// at most so much more.
pub fn check_fewest_and_most(course: &Course, whose: Whose) -> Verdict {
    let loads = || course.given.iter().map(|slot| slot.load);
    let fewest = loads().min().unwrap_or_default();
    let most = loads().max().unwrap_or_default();
    let k = course.k();
    for m in [fewest, power_below(fewest)] {
        let course = course.against(m);
        let lead = course.lead(course.furthest_behind());
        expect(-lead <= 2 * i128::from(stray(k, m)), || {
            format!(
                "{whose:?} with {m} cells or more in each frame has a lead of {lead} beside {m}"
            )
        })?;
    }
    for m in [most, most.next_power_of_two()] {
        let course = course.against(m);
        let lead = course.lead(course.furthest_ahead());
        expect(lead <= 2 * i128::from(stray(k, m)), || {
            format!("{whose:?} with up to {m} cells in each frame has a lead of {lead} beside {m}")
        })?;
    }
    Ok(())
}

/// The greatest power of two that is not above the number, and 0 for 0.
fn power_below(number: u64) -> u64 {
    number.checked_ilog2().map_or(0, |power| 1 << power)
}

/// Notes how much of the bound of its loads a run uses that may be off at both ends, the one that comes nearest to it.
pub fn note_bound(course: &Course, hits: &mut Hits) {
    let (run, k) = (course.nearest_off_at_both(), course.k());
    let (lead, bound) = (course.lead(run).abs(), course.bound(run));
    if bound == 0 {
        return;
    }
    hits.add_at(BOUND_COMPARED, k);
    hits.part(k, Used::Run, lead, bound);
    if lead == bound {
        hits.add_at(BOUND_REACHED, k);
    }
}

/// Fails where the run is too far from its share.
pub fn expect_share(course: &Course, whose: Whose, run: Run) -> Verdict {
    expect(course.has_its_share(run), || {
        let cells = course.cells(run);
        format!("{whose:?} has {cells} cells, too far from its share, in {run:?}")
    })
}

/// Every flow of so many, and every input and output of a switch with so many ports.
pub fn every_class(ports: u64, flows: usize) -> impl Iterator<Item = Class> {
    let flows = (1..=flows as u64).map(|number| Class::Flow { number });
    let inputs = (1..=ports).map(|port| Class::Input { port });
    let outputs = (1..=ports).map(|port| Class::Output { port });
    flows.chain(inputs).chain(outputs)
}

/// Every link of the outputs of a switch with so many ports.
pub fn every_link(ports: u64) -> impl Iterator<Item = Whose> {
    let links = (1..=ports).flat_map(|output| (1..=LINKS).map(move |link| (output, link)));
    links.map(|(output, link)| Whose::Link { output, link })
}

/// One of them.
pub fn random_link(ports: u64, random: &mut Random) -> Whose {
    Whose::Link {
        output: random.between(1, ports),
        link: random.between(1, LINKS),
    }
}

/// A flow of so many, or an input, an output or a link of a switch with so many ports.
pub fn random_whose(ports: u64, flows: usize, random: &mut Random) -> Whose {
    match random.below(4) {
        0 => random_link(ports, random),
        _ => random_class(ports, flows, random).into(),
    }
}

/// A flow of so many, or an input or an output of a switch with so many ports.
pub fn random_class(ports: u64, flows: usize, random: &mut Random) -> Class {
    let port = random.between(1, ports);
    let sorts = if flows > 0 { 4 } else { 2 };
    match random.below(sorts) {
        0 => Class::Input { port },
        1 => Class::Output { port },
        _ => Class::Flow {
            number: random.between(1, flows as u64),
        },
    }
}

/// The flow, as Service count names it.
pub fn class_of(flow: Followed) -> Class {
    Class::Flow {
        number: flow.number as u64,
    }
}

/// Any run of the chain, the empty ones too.
fn random_run(course: &Course, random: &mut Random) -> Run {
    let slots = course.given.len() as u64;
    let start = random.between(0, slots);
    Run {
        start: start as usize,
        length: random.between(0, slots - start) as usize,
    }
}

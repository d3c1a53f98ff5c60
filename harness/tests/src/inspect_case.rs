//! Cases of Inspect.

use calls::{Calls, Inspection, Side};
use loads::{damage, damage_by_outputs, load_of_shape, random_shape, unbalance_total, uneven};
use loads::{Block, Call, Damage, LoadKind, Random, Shape, Uneven};

use crate::build_case::{lend, over_links};
use crate::hits::{Hits, DAMAGED, DAMAGED_BY_OUTPUTS, FLOW_UNBALANCED, INPUT_UNBALANCED};
use crate::hits::{LINK_UNBALANCED, OUTPUT_UNBALANCED, TOTAL_UNBALANCED};
use crate::lent::Lent;
use crate::turn_case::on_side;
use crate::verdict::{expect_equal, told, Verdict};

/// Loads that fit and are dense enough for damage to show.
const DENSE: [LoadKind; 12] = [
    LoadKind::Full,
    LoadKind::Scattered,
    LoadKind::MostFlows,
    LoadKind::ManyOdd,
    LoadKind::OddLinks,
    LoadKind::OnePair,
    LoadKind::Permutation,
    LoadKind::Apart,
    LoadKind::Groups,
    LoadKind::Staircase,
    LoadKind::CyclicBand,
    LoadKind::AllOdd,
];

/// Damages a built frame, by outputs once it has been turned, and holds what Inspect finds against what the reference finds.
pub fn check_inspection(
    candidate: &dyn Calls,
    side: Side,
    kind: Damage,
    random: &mut Random,
    hits: &mut Hits,
) -> Verdict {
    let shape = random_shape(random);
    let call = load_of_shape(random.pick(&DENSE), shape, random);
    let mut call = over_links(call, random);
    let frame = damaged_on(side, kind, shape, &mut call, random);
    if kind != Damage::Whole {
        hits.add(match side {
            Side::Input => DAMAGED,
            Side::Output => DAMAGED_BY_OUTPUTS,
        });
    }
    let frame = lend(&frame, random);
    inspect_and_compare(candidate, side.number(), &call, &frame, random, hits)?;
    Ok(())
}

/// The frame of a load that fits, on this side, with this damage to it or to the list.
pub fn damaged_on(
    side: Side,
    kind: Damage,
    shape: Shape,
    call: &mut Call,
    random: &mut Random,
) -> Vec<u16> {
    let mut frame = built_on(side, call);
    damage_on(side, kind, shape, call, &mut frame, random);
    frame
}

/// Damages a frame of this side, or the list that goes with it.
pub fn damage_on(
    side: Side,
    kind: Damage,
    shape: Shape,
    call: &mut Call,
    frame: &mut Vec<u16>,
    random: &mut Random,
) {
    match side {
        Side::Input => damage(kind, shape, call, frame, random),
        Side::Output => damage_by_outputs(kind, shape, call, frame, random),
    }
}

/// Unbalances a block of a built frame in its total alone; Inspect must find that block, which is known without an inspector.
pub fn check_total(
    candidate: &dyn Calls,
    side: Side,
    random: &mut Random,
    hits: &mut Hits,
) -> Verdict {
    let (shape, block) = block_of_frame(1, random);
    let unbalanced = unbalance_total(shape, block, built, random);
    expect_block(candidate, side, unbalanced, block, random, hits)?;
    hits.add_at(TOTAL_UNBALANCED, block.size.trailing_zeros());
    Ok(())
}

/// The same in some flows, in an input, in an output or in a link alone.
pub fn check_uneven(
    candidate: &dyn Calls,
    side: Side,
    by: Uneven,
    random: &mut Random,
    hits: &mut Hits,
) -> Verdict {
    let (shape, block) = block_of_frame(2, random);
    let unbalanced = uneven(by, shape, block, random);
    expect_block(candidate, side, unbalanced, block, random, hits)?;
    let name = match by {
        Uneven::Flow => FLOW_UNBALANCED,
        Uneven::Input => INPUT_UNBALANCED,
        Uneven::Output => OUTPUT_UNBALANCED,
        Uneven::Link => LINK_UNBALANCED,
    };
    hits.add_at(name, block.size.trailing_zeros());
    Ok(())
}

/// A shape of two ports or more, and a block of its frame of 2^least slots or more.
pub fn block_of_frame(least: u64, random: &mut Random) -> (Shape, Block) {
    let size: usize = 1 << random.between(least, 10);
    let shape = Shape {
        ports: random.between(2, 16) as usize,
        slots: size << random.between(0, 10 - u64::from(size.trailing_zeros())),
    };
    (shape, Block::of_size(size, shape.slots, random))
}

/// Holds what Inspect finds in a frame, on this side, against the reference and against the block that was unbalanced.
fn expect_block(
    candidate: &dyn Calls,
    side: Side,
    (call, frame): (Call, Vec<u16>),
    block: Block,
    random: &mut Random,
    hits: &mut Hits,
) -> Verdict {
    let frame = lend(&on_side(side, &call, frame), random);
    let given = inspect_and_compare(candidate, side.number(), &call, &frame, random, hits)?;
    let fault = Inspection::UnbalancedBlock {
        slot: block.slot as u64,
        size: block.size as u64,
    };
    expect_equal("inspect of an unbalanced block", &given, &fault)
}

/// The reference's frame of a load that fits.
pub fn built(call: &Call) -> Vec<u16> {
    let mut frame = vec![0; call.frame_length];
    let Call {
        ports,
        slots,
        list,
        limits,
        ..
    } = call;
    let answer = reference::build(*ports, *slots, list, limits, &mut frame);
    answer.expect("the load fits");
    frame
}

/// The same on this side.
pub fn built_on(side: Side, call: &Call) -> Vec<u16> {
    on_side(side, call, built(call))
}

/// Inspects with the candidate and the reference and compares; what both found.
pub fn inspect_and_compare(
    candidate: &dyn Calls,
    side: u64,
    call: &Call,
    frame: &Lent,
    random: &mut Random,
    hits: &mut Hits,
) -> Result<Inspection, String> {
    let list = lend(&call.list, random);
    let (list_before, frame_before) = (list.clone(), frame.clone());
    let Call { ports, slots, .. } = *call;
    let given = candidate.inspect(side, ports, slots, list.part(), frame.part());
    let entries = frame_before.part();
    let right = reference::inspect(Side::told(side), ports, slots, &call.list, entries);
    hits.add(name_of(side, right));
    expect_equal("inspect", &given, &right)?;
    list.expect_same("list after inspect", &list_before)?;
    frame.expect_same("frame after inspect", &frame_before)?;
    Ok(given)
}

/// The name an inspection goes by in the counts of what was hit.
fn name_of(side: u64, inspection: Inspection) -> String {
    let found = match (inspection, Side::told(side)) {
        (Inspection::Clean, _) => "clean".into(),
        (Inspection::WrongEntry { .. }, _) => "wrong entry".into(),
        (Inspection::PortTwice { .. }, Side::Input) => "output twice".into(),
        (Inspection::PortTwice { .. }, Side::Output) => "input twice".into(),
        (Inspection::FlowCount { .. }, _) => "flow count".into(),
        (Inspection::UnbalancedBlock { size, .. }, _) => format!("unbalanced block of {size}"),
        (Inspection::Refused(refusal), _) => format!("refusal {}", refusal.number()),
    };
    format!("{} {found}", told("inspect", side))
}

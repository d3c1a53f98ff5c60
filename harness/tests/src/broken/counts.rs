//! Counts and leads of something else.

use calls::{Class, Count, Refusal, Service, Side};
use loads::{flows_of, FLOW_NUMBERS};

use crate::broken::{cut, port_of, AskedCount};

/// Counts a run's share of the frame instead of its entries.
pub fn share_for_count(asked: AskedCount) -> Service {
    let right = asked.count()?;
    let turn = AskedCount {
        start: 1,
        length: asked.slots,
        ..asked
    };
    let cells = turn.count()?.cells * asked.length / asked.slots;
    Ok(Count { cells, ..right })
}

/// Counts the entries that a test keeps, the others as idle.
fn count_kept(asked: AskedCount, is_kept: impl Fn(usize, u16) -> bool) -> Service {
    asked.count()?;
    let entries = asked.frame.iter().enumerate();
    let kept = entries.map(|(place, &entry)| match is_kept(place, entry) {
        true => entry,
        false => 0,
    });
    let frame: &[u16] = &kept.collect::<Vec<_>>();
    AskedCount { frame, ..asked }.count()
}

/// Counts for an output the entries that stand at their flow's own port only.
pub fn output_by_place(asked: AskedCount) -> Service {
    match asked.class {
        Class::Output { .. } => by_place(asked),
        _ => asked.count(),
    }
}

/// Counts for a flow the entries that stand at its own port only.
pub fn flow_by_place(asked: AskedCount) -> Service {
    match asked.class {
        Class::Flow { .. } => by_place(asked),
        _ => asked.count(),
    }
}

/// Counts the entries that stand at their flow's own port.
fn by_place(asked: AskedCount) -> Service {
    asked.count()?;
    let flows = flows_of(asked.list);
    count_kept(asked, |place, entry| {
        let flow = flows.get(usize::from(entry).wrapping_sub(1));
        let side = Side::told(asked.side);
        flow.is_some_and(|flow| port_of(side, flow) == place % asked.ports as usize)
    })
}

/// Leaves entries that are no flow out of a port's count.
pub fn flows_of_input_only(asked: AskedCount) -> Service {
    let flows = asked.list.len() / FLOW_NUMBERS;
    count_kept(asked, |_, entry| usize::from(entry) <= flows)
}

/// Counts nothing for a flow that is not in the list, and does not refuse.
pub fn unknown_flow_is_idle(asked: AskedCount) -> Service {
    match (asked.count(), asked.class) {
        (Err(Refusal::FlowOrPort), Class::Flow { .. }) => Ok(Count { cells: 0, lead: 0 }),
        (answer, _) => answer,
    }
}

/// Turns the lead's sign round.
pub fn lead_turned_round(asked: AskedCount) -> Service {
    with_lead(asked, |count| -count.lead)
}

/// Takes the run's cells for those of the whole frame.
pub fn load_of_the_run(asked: AskedCount) -> Service {
    with_lead(asked, |count| lead_of(asked, count.cells, count.cells))
}

/// Takes the cells that the list reserves for a flow for those of the whole frame.
pub fn load_of_the_list(asked: AskedCount) -> Service {
    with_lead(asked, |count| match asked.class {
        Class::Flow { number } => {
            let flow = flows_of(asked.list)[number as usize - 1];
            lead_of(asked, count.cells, flow.cells.into())
        }
        _ => count.lead,
    })
}

/// Gives no lead for a run that is longer than the frame.
pub fn lead_of_short_runs(asked: AskedCount) -> Service {
    let is_long = asked.length > asked.slots;
    with_lead(asked, |count| if is_long { 0 } else { count.lead })
}

/// Gives the lead as a 32-bit word without a sign keeps it.
pub fn cut_lead(asked: AskedCount) -> Service {
    with_lead(asked, |count| cut(count.lead as u64) as i64)
}

/// The right cells with another lead.
fn with_lead(asked: AskedCount, lead: impl Fn(Count) -> i64) -> Service {
    let count = asked.count()?;
    let lead = lead(count);
    Ok(Count { lead, ..count })
}

/// The lead of so many cells where the frame has this load.
fn lead_of(asked: AskedCount, cells: u64, load: u64) -> i64 {
    (asked.slots * cells) as i64 - (asked.length * load) as i64
}

/// Takes either side for the other.
pub fn count_of_other_side(asked: AskedCount) -> Service {
    let side = Side::told(asked.side).other().number();
    AskedCount { side, ..asked }.count()
}

/// Takes only 1 for the output side.
pub fn count_by_1_alone(asked: AskedCount) -> Service {
    let side = u64::from(asked.side == 1);
    AskedCount { side, ..asked }.count()
}

/// Counts for an input what stands at its place, on the output side too.
pub fn input_by_place(asked: AskedCount) -> Service {
    let side = match asked.class {
        Class::Input { .. } => Side::Input.number(),
        _ => asked.side,
    };
    AskedCount { side, ..asked }.count()
}

/// Counts for an output the flows to it wherever they stand, on the output side too.
pub fn output_by_flows(asked: AskedCount) -> Service {
    let side = match asked.class {
        Class::Output { .. } => Side::Input.number(),
        _ => asked.side,
    };
    AskedCount { side, ..asked }.count()
}

/// Counts nothing in a run of 2^32 slots.
pub fn cut_run(asked: AskedCount) -> Service {
    let length = cut(asked.length);
    AskedCount { length, ..asked }.count()
}

/// Takes flow 65,537 for flow 1.
pub fn cut_flow(asked: AskedCount) -> Service {
    let class = match asked.class {
        Class::Flow { number } => Class::Flow {
            number: number & 0xffff,
        },
        other => other,
    };
    AskedCount { class, ..asked }.count()
}

//! Depths of something else.

use calls::{Bounded, Class, Depth, Refusal};
use loads::{flows_of, Flow, FLOW_NUMBERS, LINKS};
use reference::wire::{demanded, deviation};

use crate::broken::AskedDepth;

/// A load, and the slots that it is spread over.
#[derive(Clone, Copy)]
struct Spread {
    slots: u64,
    load: u64,
}

impl Spread {
    /// What the asked class has, where the call is accepted.
    fn asked(asked: AskedDepth) -> Spread {
        let flows = flows_of(asked.list);
        let cells = |is_its: &dyn Fn(usize, &Flow) -> bool| {
            let its = (1..)
                .zip(&flows)
                .filter(|(number, flow)| is_its(*number, flow));
            its.map(|(_, flow)| u64::from(flow.cells)).sum()
        };
        let load = match asked.class {
            Class::Flow { number } => cells(&|own, _| own as u64 == number),
            Class::Input { port } => cells(&|_, flow| flow.input as u64 + 1 == port),
            Class::Output { port } => cells(&|_, flow| flow.output as u64 + 1 == port),
        };
        let slots = asked.slots;
        Spread { slots, load }
    }

    /// The cells to order by the rule.
    fn ordered(self, parts: u64) -> u64 {
        (self.slots - 1 + parts + self.load) / self.slots
    }

    /// This bound, and the cells to order by it.
    fn depth(self, parts: u64) -> Depth {
        let cells = self.ordered(parts);
        Depth { parts, cells }
    }

    /// The bound by the rule.
    fn bound(self) -> u64 {
        2 * furthest(self.ahead(larger_first))
    }

    /// The cells of each slot, those of a block being halved in this way.
    fn cells(self, halve: Halve) -> Vec<u64> {
        if self.slots == 1 {
            return vec![self.load];
        }
        let slots = self.slots / 2;
        let halves = halve(self.load).map(|load| Spread { slots, load }.cells(halve));
        halves.concat()
    }

    /// How far ahead of their share the first slots then are, for each number of them.
    fn ahead(self, halve: Halve) -> Vec<u64> {
        let cells = self.cells(halve).into_iter();
        let running = cells.scan(0, |before, cells| {
            *before += self.slots * cells;
            Some(*before)
        });
        let shares = (1..).map(|slots| slots * self.load);
        let ahead = running
            .zip(shares)
            .map(|(cells, share)| cells.saturating_sub(share));
        ahead.collect()
    }
}

/// Shares the cells of a block between its first and its second half.
type Halve = fn(u64) -> [u64; 2];

fn larger_first(load: u64) -> [u64; 2] {
    [load.div_ceil(2), load / 2]
}

/// The right refusals, and depths by another bound.
fn with_bound(asked: AskedDepth, bound: impl Fn(Spread) -> u64) -> Bounded {
    asked.depth()?;
    let spread = Spread::asked(asked);
    Ok(spread.depth(bound(spread)))
}

/// The right bound with other cells to order.
fn with_cells(asked: AskedDepth, cells: impl Fn(Spread, u64) -> u64) -> Bounded {
    let right = asked.depth()?;
    let cells = cells(Spread::asked(asked), right.parts);
    Ok(Depth { cells, ..right })
}

fn furthest(ahead: Vec<u64>) -> u64 {
    ahead.into_iter().max().unwrap_or_default()
}

/// The rule as it is, by halves of halves.
pub fn right_depth(asked: AskedDepth) -> Bounded {
    with_bound(asked, Spread::bound)
}

/// Leaves out one of the two ends of a run.
pub fn one_end_of_a_run(asked: AskedDepth) -> Bounded {
    with_bound(asked, |spread| furthest(spread.ahead(larger_first)))
}

/// Gives the odd cell of a block to its second half.
pub fn smaller_half_first(asked: AskedDepth) -> Bounded {
    let halve: Halve = |load| [load / 2, load.div_ceil(2)];
    with_bound(asked, |spread| 2 * furthest(spread.ahead(halve)))
}

/// Gives the odd cell of a block to both its halves.
pub fn both_halves_larger(asked: AskedDepth) -> Bounded {
    let halve: Halve = |load| [load.div_ceil(2); 2];
    with_bound(asked, |spread| 2 * furthest(spread.ahead(halve)))
}

/// Looks at the first half of the frame only.
pub fn first_half_only(asked: AskedDepth) -> Bounded {
    with_bound(asked, |spread| {
        let mut ahead = spread.ahead(larger_first);
        ahead.truncate(ahead.len().div_ceil(2));
        2 * furthest(ahead)
    })
}

/// Looks at the middle of the frame only.
pub fn middle_only(asked: AskedDepth) -> Bounded {
    with_bound(asked, |spread| {
        let ahead = spread.ahead(larger_first);
        2 * ahead[(ahead.len() - 1) / 2]
    })
}

/// Gives the bound that holds for every load.
pub fn whatever_the_load(asked: AskedDepth) -> Bounded {
    with_bound(asked, |spread| {
        2 * deviation(spread.slots.trailing_zeros()) as u64
    })
}

/// Gives the bound of demand 3, rounded down.
pub fn bound_of_demand_3(asked: AskedDepth) -> Bounded {
    with_bound(asked, |spread| {
        demanded(spread.slots.trailing_zeros()) as u64 / 3
    })
}

/// Takes a source that may be a whole cell early for an even one.
pub fn a_whole_cell_early(asked: AskedDepth) -> Bounded {
    with_cells(asked, |spread, parts| spread.ordered(parts + 1))
}

/// Takes a source that is never early for an even one.
pub fn never_early(asked: AskedDepth) -> Bounded {
    with_cells(asked, |spread, parts| (parts + spread.load) / spread.slots)
}

/// Leaves out the share of the slot itself.
pub fn after_the_slot(asked: AskedDepth) -> Bounded {
    with_cells(asked, |spread, parts| parts.div_ceil(spread.slots))
}

/// Rounds the cells up.
pub fn rounded_up(asked: AskedDepth) -> Bounded {
    with_cells(asked, |spread, parts| {
        (spread.slots - 1 + parts + spread.load).div_ceil(spread.slots)
    })
}

/// Gives the answer of another class, where both are accepted.
fn of_other(asked: AskedDepth, other: impl Fn(Class) -> Class) -> Bounded {
    let right = asked.depth()?;
    let class = other(asked.class);
    Ok(AskedDepth { class, ..asked }.depth().unwrap_or(right))
}

/// Answers for the input where an output of the same number is asked about.
pub fn input_for_output(asked: AskedDepth) -> Bounded {
    of_other(asked, |class| match class {
        Class::Output { port } => Class::Input { port },
        other => other,
    })
}

/// Answers for the next flow of the list.
pub fn next_flow(asked: AskedDepth) -> Bounded {
    of_other(asked, |class| match class {
        Class::Flow { number } => Class::Flow { number: number + 1 },
        other => other,
    })
}

/// Answers for a flow by the load of its input.
pub fn input_of_the_flow(asked: AskedDepth) -> Bounded {
    let flows = || flows_of(asked.list);
    of_other(asked, |class| match class {
        Class::Flow { number } => Class::Input {
            port: flows()[number as usize - 1].input as u64 + 1,
        },
        other => other,
    })
}

/// The list with other numbers for each flow.
fn relisted(list: &[u16], flow: fn([u16; FLOW_NUMBERS]) -> [u16; FLOW_NUMBERS]) -> Vec<u16> {
    let (flows, _) = list.as_chunks();
    flows.iter().flat_map(|&numbers| flow(numbers)).collect()
}

/// Whether the asked class is in the list or at the switch.
fn is_known(asked: AskedDepth) -> bool {
    let idle = relisted(asked.list, |[input, output, _, link]| {
        [input, output, 0, link]
    });
    let idle = AskedDepth {
        list: &idle,
        ..asked
    };
    idle.depth() != Err(Refusal::FlowOrPort)
}

/// Looks at the class before it looks at the loads: 12 before 5 and 6.
pub fn class_before_loads(asked: AskedDepth) -> Bounded {
    match asked.depth() {
        Err(Refusal::InputLoad { .. } | Refusal::OutputLoad { .. }) if !is_known(asked) => {
            Err(Refusal::FlowOrPort)
        }
        answer => answer,
    }
}

/// Looks at the outputs before it looks at the inputs: 6 before 5.
pub fn outputs_before_inputs(asked: AskedDepth) -> Bounded {
    let answer = asked.depth();
    let Err(Refusal::InputLoad { .. }) = answer else {
        return answer;
    };
    let turned = relisted(asked.list, |[input, output, cells, link]| {
        [output, input, cells, link]
    });
    let turned = AskedDepth {
        list: &turned,
        ..asked
    };
    match turned.depth() {
        Err(Refusal::InputLoad { port, cells }) => Err(Refusal::OutputLoad { port, cells }),
        _ => answer,
    }
}

/// Accepts an overload where the load that is asked about fits.
pub fn overloads_elsewhere(asked: AskedDepth) -> Bounded {
    asked.depth().or_else(|refusal| {
        let overloaded = matches!(refusal.number(), 5 | 6);
        let spread = (overloaded && is_known(asked)).then(|| Spread::asked(asked));
        let fitting = spread.filter(|spread| spread.load <= spread.slots);
        fitting
            .map(|spread| spread.depth(spread.bound()))
            .ok_or(refusal)
    })
}

/// Holds links to a quarter of the slots: 24 after 6.
pub fn limits_of_a_quarter(asked: AskedDepth) -> Bounded {
    let right = asked.depth()?;
    let AskedDepth {
        ports, slots, list, ..
    } = asked;
    let limits = [slots.div_ceil(LINKS as u64) as u16; 64];
    reference::admit(ports, slots, list, &limits).map(|()| right)
}

/// Says that nothing is to be ordered for a flow that is not in the list, and does not refuse.
pub fn unknown_flow_without_cells(asked: AskedDepth) -> Bounded {
    match (asked.depth(), asked.class) {
        (Err(Refusal::FlowOrPort), Class::Flow { .. }) => Ok(Depth { parts: 0, cells: 0 }),
        (answer, _) => answer,
    }
}

/// Takes port 65,537 for port 1.
pub fn sixteen_bit_port(asked: AskedDepth) -> Bounded {
    let class = match asked.class {
        Class::Input { port } => Class::Input {
            port: port & 0xffff,
        },
        Class::Output { port } => Class::Output {
            port: port & 0xffff,
        },
        other => other,
    };
    AskedDepth { class, ..asked }.depth()
}

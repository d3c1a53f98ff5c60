//! Wrong answers to which loads are accepted.

use calls::{Answer, Refusal};
use loads::{flows_of, Flow, FLOW_NUMBERS, LINKS, MOST_FLOWS};

use crate::broken::Asked;

/// Admits what looks light in 16 bits.
pub fn sixteen_bit_admit(asked: Asked) -> Answer {
    let answer = asked.admit();
    let overloaded = answer.is_err_and(|refusal| matches!(refusal.number(), 5 | 6));
    if overloaded && looks_light(asked) {
        return Ok(());
    }
    answer
}

/// Whether no port comes to more than slots in 16 bits.
fn looks_light(asked: Asked) -> bool {
    let flows = flows_of(asked.list);
    let fits = |is_there: &dyn Fn(&Flow) -> bool| {
        let there = flows.iter().filter(|flow| is_there(flow));
        let load = there.fold(0_u16, |load, flow| load.wrapping_add(flow.cells));
        u64::from(load) <= asked.slots
    };
    (0..asked.ports as usize)
        .all(|port| fits(&|flow| flow.input == port) && fits(&|flow| flow.output == port))
}

/// Takes a list that is too long, and looks at its first flows only.
pub fn overlong_list(asked: Asked) -> Answer {
    let most = MOST_FLOWS * FLOW_NUMBERS;
    let list = asked.list.get(..most).unwrap_or(asked.list);
    Asked { list, ..asked }.admit()
}

/// Leaves out the numbers at the end of a list that make no whole flow.
pub fn rest_left_out(asked: Asked) -> Answer {
    let whole = asked.list.len() / FLOW_NUMBERS * FLOW_NUMBERS;
    let list = &asked.list[..whole];
    Asked { list, ..asked }.admit()
}

/// Accepts 513 flows.
pub fn a_flow_more(asked: Asked) -> Answer {
    let answer = asked.admit();
    let one_more = (MOST_FLOWS + 1) * FLOW_NUMBERS;
    if answer == Err(Refusal::TooManyFlows) && asked.list.len() == one_more {
        let (first, others) = asked.list.split_at(FLOW_NUMBERS);
        Asked {
            list: others,
            ..asked
        }
        .admit()?;
        return Asked {
            list: first,
            ..asked
        }
        .admit();
    }
    answer
}

/// Looks for a port outside the switch before it counts the flows: 22 before 21.
pub fn ports_before_number(asked: Asked) -> Answer {
    let answer = asked.admit();
    let flows = asked.list.chunks(FLOW_NUMBERS);
    let mut numbers = flows.flat_map(|flow| &flow[..2]);
    let known = |&port: &u16| (1..=asked.ports).contains(&u64::from(port));
    if answer == Err(Refusal::TooManyFlows) && !numbers.all(known) {
        return Err(Refusal::FlowPort);
    }
    answer
}

/// Counts the flows before it looks for a rest: 21 before 3.
pub fn number_before_length(asked: Asked) -> Answer {
    let answer = asked.admit();
    if answer == Err(Refusal::ListLength) && asked.list.len() / FLOW_NUMBERS > MOST_FLOWS {
        return Err(Refusal::TooManyFlows);
    }
    answer
}

/// Looks at the low byte of a port.
pub fn eight_bit_ports(asked: Asked) -> Answer {
    let mut cut = asked.list.to_vec();
    for flow in cut.chunks_exact_mut(FLOW_NUMBERS) {
        flow[0] &= 0xff;
        flow[1] &= 0xff;
    }
    Asked {
        list: &cut,
        ..asked
    }
    .admit()
}

/// Takes a list without flows for a list of the wrong length.
pub fn no_empty_list(asked: Asked) -> Answer {
    asked.admit()?;
    if asked.list.is_empty() {
        return Err(Refusal::ListLength);
    }
    Ok(())
}

/// Takes link 0 for link 1.
pub fn link_0_accepted(asked: Asked) -> Answer {
    let mut list = asked.list.to_vec();
    for link in list.iter_mut().skip(3).step_by(FLOW_NUMBERS) {
        *link = (*link).max(1);
    }
    Asked {
        list: &list,
        ..asked
    }
    .admit()
}

/// Looks for a link outside 1 to 4 before it looks at the ports: 23 before 22.
pub fn links_before_ports(asked: Asked) -> Answer {
    let answer = asked.admit();
    let mut links = asked.list.iter().skip(3).step_by(FLOW_NUMBERS);
    let known = |&link: &u16| (1..=LINKS).contains(&usize::from(link));
    if answer == Err(Refusal::FlowPort) && !links.all(known) {
        return Err(Refusal::FlowLink);
    }
    answer
}

/// A refusal for every link that is asked for more than its limit, by rising output and link.
fn links_over(asked: Asked) -> Vec<Refusal> {
    let mut loads = [0; 64];
    for flow in flows_of(asked.list) {
        loads[flow.output * LINKS + flow.link] += u64::from(flow.cells);
    }
    let links = (0..asked.ports as usize * LINKS).map(|place| (place, loads[place]));
    let over = links.filter(|&(place, cells)| cells > u64::from(asked.limits[place]));
    let refusals = over.map(|(place, cells)| Refusal::LinkLoad {
        output: (place / LINKS) as u64 + 1,
        link: (place % LINKS) as u64 + 1,
        cells,
    });
    refusals.collect()
}

/// Looks at the links before it looks at the outputs: 24 before 6.
pub fn links_before_outputs(asked: Asked) -> Answer {
    let answer = asked.admit();
    match answer {
        Err(Refusal::OutputLoad { .. }) => {
            let lowest = links_over(asked).into_iter().next();
            lowest.map_or(answer, Err)
        }
        _ => answer,
    }
}

/// Reports the highest output with a link over its limit, and its highest such link.
pub fn highest_output(asked: Asked) -> Answer {
    last_over(asked, |_| true)
}

/// Reports the lowest output with a link over its limit, but its highest such link.
pub fn highest_link(asked: Asked) -> Answer {
    last_over(asked, |same_output| same_output)
}

/// Reports the last of the links over their limits that are asked for, each by whether it is of the lowest such output.
fn last_over(asked: Asked, is_asked: impl Fn(bool) -> bool) -> Answer {
    let answer = asked.admit();
    let Err(Refusal::LinkLoad { output: lowest, .. }) = answer else {
        return answer;
    };
    let of_lowest = |refusal: &Refusal| matches!(refusal, Refusal::LinkLoad { output, .. } if *output == lowest);
    let over = links_over(asked).into_iter();
    let last = over.filter(|refusal| is_asked(of_lowest(refusal))).last();
    last.map_or(answer, Err)
}

/// Holds the links of each output to the limits of the next.
pub fn limits_of_next_output(asked: Asked) -> Answer {
    let mut limits = *asked.limits;
    limits.rotate_left(LINKS);
    Asked {
        limits: &limits,
        ..asked
    }
    .admit()
}

/// Turns a link away that has as many cells as its limit.
pub fn limit_not_reached(asked: Asked) -> Answer {
    asked.admit()?;
    let limits = asked.limits.map(|limit| limit.saturating_sub(1));
    Asked {
        limits: &limits,
        ..asked
    }
    .admit()
}

/// Looks at no limit but those of link 1.
pub fn first_limits_only(asked: Asked) -> Answer {
    let mut limits = [u16::MAX; 64];
    for (limit, given) in limits.iter_mut().zip(asked.limits).step_by(LINKS) {
        *limit = *given;
    }
    Asked {
        limits: &limits,
        ..asked
    }
    .admit()
}

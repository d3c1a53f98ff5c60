//! The frame builder a careful programmer would write first: lists of counts, halves and walks.

#![forbid(unsafe_code)]

const MOST_PORTS: usize = 16;
const MOST_SLOTS: usize = 1_024;
const MOST_FLOWS: usize = 512;

/// The links of an output.
const LINKS: usize = 4;

/// The links of all outputs.
const MOST_LINKS: usize = MOST_PORTS * LINKS;

/// The numbers of a flow in a list: its input, its output, its cells, its link.
const FLOW_NUMBERS: usize = 4;

/// The cells per frame that each link may have, output by output.
pub type Limits = [u16; MOST_LINKS];

/// At each odd count its partner among its input's counts, or among its output's.
type Partners = Vec<Option<u16>>;

/// The switch and the inputs and links of its flows, which are counted from 0, the links through all outputs.
struct Switch {
    ports: usize,
    inputs: Vec<u8>,
    links: Vec<u8>,
    /// The outputs with flows on several links.
    shared: Vec<usize>,
}

/// Fills the frame and says how many odd counts were settled; says nothing, the frame untouched, if the load is refused.
pub fn build(
    ports: usize,
    slots: usize,
    list: &[u16],
    limits: &Limits,
    frame: &mut [u16],
) -> Option<usize> {
    if !is_well_formed(ports, slots, list, frame) || is_overloaded(ports, slots, list, limits) {
        return None;
    }
    let (switch, counts) = read_list(ports, list);
    Some(fill_block(&switch, &counts, frame))
}

fn is_well_formed(ports: usize, slots: usize, list: &[u16], frame: &[u16]) -> bool {
    let is_port = |number: u16| (1..=ports).contains(&usize::from(number));
    (1..=MOST_PORTS).contains(&ports)
        && slots.is_power_of_two()
        && slots <= MOST_SLOTS
        && list.len().is_multiple_of(FLOW_NUMBERS)
        && list.len() <= MOST_FLOWS * FLOW_NUMBERS
        && list.chunks_exact(FLOW_NUMBERS).all(|flow| {
            is_port(flow[0]) && is_port(flow[1]) && (1..=LINKS).contains(&usize::from(flow[3]))
        })
        && frame.len() == slots * ports
}

/// The load of each input, of each output and of each link.
pub struct Loads {
    pub inputs: [usize; MOST_PORTS],
    pub outputs: [usize; MOST_PORTS],
    pub links: [usize; MOST_LINKS],
}

/// The loads, in one pass over the list, all of whose ports and links are those of a switch.
pub fn loads_of(list: &[u16]) -> Loads {
    let mut loads = Loads {
        inputs: [0; MOST_PORTS],
        outputs: [0; MOST_PORTS],
        links: [0; MOST_LINKS],
    };
    for flow in list.chunks_exact(FLOW_NUMBERS) {
        let cells = usize::from(flow[2]);
        loads.inputs[usize::from(flow[0]) - 1] += cells;
        loads.outputs[usize::from(flow[1]) - 1] += cells;
        loads.links[link_of(flow)] += cells;
    }
    loads
}

/// The link of a flow, counted from 0 through all outputs.
fn link_of(flow: &[u16]) -> usize {
    (usize::from(flow[1]) - 1) * LINKS + usize::from(flow[3]) - 1
}

fn is_overloaded(ports: usize, slots: usize, list: &[u16], limits: &Limits) -> bool {
    let loads = loads_of(list);
    let mut of_ports = loads.inputs[..ports].iter().chain(&loads.outputs[..ports]);
    let mut of_links = loads.links[..ports * LINKS].iter().zip(limits);
    of_ports.any(|&load| load > slots) || of_links.any(|(&load, &limit)| load > limit.into())
}

/// The inputs and links of the flows of a list, and their cells.
fn read_list(ports: usize, list: &[u16]) -> (Switch, Vec<u16>) {
    let flows = || list.chunks_exact(FLOW_NUMBERS);
    let mut used = [false; MOST_LINKS];
    for flow in flows() {
        used[link_of(flow)] = true;
    }
    let several = |output: &usize| {
        let links = used[output * LINKS..][..LINKS].iter();
        links.filter(|&&used| used).count() > 1
    };
    let switch = Switch {
        ports,
        inputs: flows().map(|flow| flow[0] as u8 - 1).collect(),
        links: flows().map(|flow| link_of(flow) as u8).collect(),
        shared: (0..ports).filter(several).collect(),
    };
    (switch, flows().map(|flow| flow[2]).collect())
}

/// Fills a block, and says how many counts of it and of the blocks within it are odd.
fn fill_block(switch: &Switch, counts: &[u16], block: &mut [u16]) -> usize {
    if block.len() == switch.ports {
        fill_slot(switch, counts, block);
        return 0;
    }
    let (first, second, odd) = halve(switch, counts);
    let (front, back) = block.split_at_mut(block.len() / 2);
    odd + fill_block(switch, &first, front) + fill_block(switch, &second, back)
}

fn fill_slot(switch: &Switch, counts: &[u16], slot: &mut [u16]) {
    slot.fill(0);
    for (flow, (&count, &input)) in (1..).zip(counts.iter().zip(&switch.inputs)) {
        if count == 1 {
            slot[usize::from(input)] = flow;
        }
    }
}

/// Shares the counts between the two halves of a block, and says how many are odd.
fn halve(switch: &Switch, counts: &[u16]) -> (Vec<u16>, Vec<u16>, usize) {
    let (at_inputs, _) = find_partners::<MOST_PORTS>(&switch.inputs, counts);
    let partners = [at_inputs, partners_at_outputs(switch, counts)];
    let mut first: Vec<u16> = counts.iter().map(|count| count / 2).collect();
    let mut second = first.clone();
    let mut settled = vec![false; counts.len()];
    let mut group = Group::default();
    let mut larger_first = true;
    let mut odd = 0;
    for flow in 0..counts.len() {
        if counts[flow] % 2 == 1 && !settled[flow] {
            group.gather(flow, &partners, &mut settled);
            odd += group.size();
            let own_first = !group.is_odd() || group.own_is_larger() == larger_first;
            if own_first {
                group.share_out(&mut first, &mut second);
            } else {
                group.share_out(&mut second, &mut first);
            }
            if group.is_odd() {
                larger_first = !larger_first;
            }
        }
    }
    (first, second, odd)
}

/// Counts joined by partnership: those that favour the same half as the group's first count does, and those that favour the other
/// half.
#[derive(Default)]
struct Group {
    own: Vec<u16>,
    other: Vec<u16>,
}

impl Group {
    /// Begins a group anew with its first count, and walks from there both ways.
    fn gather(&mut self, first: usize, partners: &[Partners; 2], settled: &mut [bool]) {
        self.own.clear();
        self.other.clear();
        settled[first] = true;
        self.own.push(first as u16);
        let [at_input, at_output] = partners;
        self.walk(first, [at_input, at_output], settled);
        self.walk(first, [at_output, at_input], settled);
    }

    /// Walks a chain of partners from the first count on, which are on either side in turn.
    fn walk(&mut self, first: usize, partners: [&Partners; 2], settled: &mut [bool]) {
        let mut flow = first;
        let mut step = 0;
        while let Some(next) = partners[step % 2][flow].map(usize::from) {
            if settled[next] {
                return;
            }
            settled[next] = true;
            if step % 2 == 0 {
                self.other.push(next as u16);
            } else {
                self.own.push(next as u16);
            }
            flow = next;
            step += 1;
        }
    }

    fn size(&self) -> usize {
        self.own.len() + self.other.len()
    }

    fn is_odd(&self) -> bool {
        self.size() % 2 == 1
    }

    /// Whether more counts are on the side of the first than on the other.
    fn own_is_larger(&self) -> bool {
        self.own.len() > self.other.len()
    }

    /// Gives an extra cell of each count on the side of the first to the one half, and of each other count to the other half.
    fn share_out(&self, to_own: &mut [u16], to_other: &mut [u16]) {
        for &flow in &self.own {
            to_own[usize::from(flow)] += 1;
        }
        for &flow in &self.other {
            to_other[usize::from(flow)] += 1;
        }
    }
}

/// Partners the odd counts of each link, and then those that wait at the links of one output, by rising link.
fn partners_at_outputs(switch: &Switch, counts: &[u16]) -> Partners {
    let (mut partners, waiting) = find_partners::<MOST_LINKS>(&switch.links, counts);
    for output in &switch.shared {
        let mut waits = None;
        for &flow in waiting[output * LINKS..][..LINKS].iter().flatten() {
            join(flow, &mut waits, &mut partners);
        }
    }
    partners
}

/// Partners the odd counts of each input, or of each link, first with second and so on, in one pass over the flows; with them the
/// single ones, which still wait.
fn find_partners<const ENDS: usize>(
    ends: &[u8],
    counts: &[u16],
) -> (Partners, [Option<u16>; ENDS]) {
    let mut partners = vec![None; counts.len()];
    let mut waiting = [None; ENDS];
    for (flow, (&count, &end)) in (0..).zip(counts.iter().zip(ends)) {
        if count % 2 == 1 {
            join(flow, &mut waiting[usize::from(end)], &mut partners);
        }
    }
    (partners, waiting)
}

/// Partners a count with the one waiting at its place, or leaves it waiting.
fn join(flow: u16, waiting: &mut Option<u16>, partners: &mut [Option<u16>]) {
    match waiting.take() {
        Some(other) => {
            partners[usize::from(flow)] = Some(other);
            partners[usize::from(other)] = Some(flow);
        }
        None => *waiting = Some(flow),
    }
}

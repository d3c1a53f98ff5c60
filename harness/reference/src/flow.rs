//! Reservations: a list of flows, lent as numbers, four to a flow, and the limits of the links that they use.

/// The most flows of a list.
pub const MOST_FLOWS: usize = 512;

/// The links of an output, numbered from 1.
pub const LINKS: u64 = 4;

/// The numbers of a flow in a list: its input, its output, its cells, its link.
pub(crate) const FLOW_NUMBERS: usize = 4;

/// The cells per frame that each link may have: those of output 1's links 1 to 4, then of output 2's, and so on.
pub type Limits = [u16; 64];

/// The limits of links that may each have as many cells as the frame has slots, or as 16 bits can say.
pub fn slots_each(slots: u64) -> Limits {
    [u16::try_from(slots).unwrap_or(u16::MAX); 64]
}

/// One reservation of a list; its number is its place there, from 1.
#[derive(Clone, Copy, Debug, PartialEq, Eq)]
pub(crate) struct Flow {
    pub input: u64,
    pub output: u64,
    pub cells: u64,
    pub link: u64,
}

impl Flow {
    /// Whether it goes to this output by this link.
    pub(crate) fn is_on(&self, output: u64, link: u64) -> bool {
        (self.output, self.link) == (output, link)
    }
}

/// The flows of a list; what is left over at its end is none.
pub(crate) fn flows_of(list: &[u16]) -> Vec<Flow> {
    let flows = list.chunks_exact(FLOW_NUMBERS);
    flows
        .map(|numbers| Flow {
            input: numbers[0].into(),
            output: numbers[1].into(),
            cells: numbers[2].into(),
            link: numbers[3].into(),
        })
        .collect()
}

/// The flow that has this number, which 0 is not; none where it is not in the list.
pub(crate) fn numbered(flows: &[Flow], number: u64) -> Option<&Flow> {
    let place = number.checked_sub(1)?;
    flows.get(usize::try_from(place).ok()?)
}

/// The cells of the flows that are asked for, together.
pub(crate) fn cells_of(flows: &[Flow], asked: impl Fn(&Flow) -> bool) -> u64 {
    let flows = flows.iter().filter(|flow| asked(flow));
    flows.map(|flow| flow.cells).sum()
}

/// How many of a slot's entries, whatever they are, are flows that are asked for.
pub(crate) fn sent_in(slot: &[u16], flows: &[Flow], asked: impl Fn(&Flow) -> bool) -> u64 {
    let sent = slot.iter().map(|&entry| numbered(flows, entry.into()));
    sent.flatten().filter(|flow| asked(flow)).count() as u64
}

/// Every link of so many outputs, by output and link, in the order of the limits.
pub(crate) fn links_of(ports: u64) -> impl Iterator<Item = (u64, u64)> {
    (1..=ports).flat_map(|output| (1..=LINKS).map(move |link| (output, link)))
}

//! Flows over the links of their outputs, and the limits of the links.

use crate::list::{FLOW_NUMBERS, LINKS};
use crate::load::{load_of_shape, Call, LoadKind, Shape};
use crate::random::Random;

/// The cells per frame that each link may have: those of output 1's links, then of output 2's, and so on.
pub type Limits = [u16; 64];

/// Loads on link 1 with several flows at an output, or often so.
const TO_SPREAD: [LoadKind; 10] = [
    LoadKind::Full,
    LoadKind::Scattered,
    LoadKind::MatrixOrder,
    LoadKind::MostFlows,
    LoadKind::ManyOdd,
    LoadKind::OnePair,
    LoadKind::Groups,
    LoadKind::Staircase,
    LoadKind::CyclicBand,
    LoadKind::AllOdd,
];

impl Call {
    /// Whether all flows are on link 1 and all limits are the slots.
    pub fn is_on_link_1(&self) -> bool {
        let mut flows = self.list.chunks_exact(FLOW_NUMBERS);
        flows.all(|flow| flow[3] == 1) && self.limits == [self.slots as u16; 64]
    }

    /// Puts each flow on any of the four links, or now and then of two or three of them.
    pub fn spread(&mut self, random: &mut Random) {
        let mut links = random.permutation(LINKS);
        links.truncate(random.pick(&[2, 3, LINKS, LINKS, LINKS, LINKS]));
        for flow in self.list.chunks_exact_mut(FLOW_NUMBERS) {
            flow[3] = random.pick(&links) as u16 + 1;
        }
    }

    /// Gives each link its load for a limit.
    pub fn limit_exactly(&mut self) {
        let mut loads = [0_u64; 64];
        for flow in self.list.chunks_exact(FLOW_NUMBERS) {
            if let Some(load) = link_of(flow).and_then(|place| loads.get_mut(place)) {
                *load += u64::from(flow[2]);
            }
        }
        self.limits = loads.map(|load| u16::try_from(load).unwrap_or(u16::MAX));
    }

    /// The same, and then takes one cell of the limit of some links with cells, or several.
    fn limit_short(&mut self, random: &mut Random) {
        self.limit_exactly();
        let mut loaded: Vec<usize> = (0..64).filter(|&link| self.limits[link] > 0).collect();
        random.shuffle(&mut loaded);
        loaded.truncate(random.pick(&[1, 1, 2, 5]));
        for link in loaded {
            let limit = &mut self.limits[link];
            let several = random.between(0, u64::from(*limit) - 1) as u16;
            *limit = random.pick(&[*limit - 1, *limit - 1, several]);
        }
    }

    /// Limits of slots each or exact ones, but for some links that have any.
    pub(crate) fn limit_at_random(&mut self, random: &mut Random) {
        if random.one_in(2) {
            self.limit_exactly();
        }
        for _ in 0..random.pick(&[0, 1, 2, 8]) {
            let limit = &mut self.limits[random.place(64)];
            let any = random.between(0, u64::from(u16::MAX)) as u16;
            let few = random.between(0, self.slots.clamp(1, 1_024)) as u16;
            let more = limit.saturating_add(1);
            *limit = random.pick(&[0, 1, u16::MAX, any, few, few, more]);
        }
    }
}

/// The place of a flow's link among the limits, where its output is one from 1 on and its link one of 1 to 4.
fn link_of(flow: &[u16]) -> Option<usize> {
    let output = usize::from(flow[1]).checked_sub(1)?;
    let link = usize::from(flow[3]).checked_sub(1)?;
    (link < LINKS).then_some(output * LINKS + link)
}

/// A load over several links, with limits of slots each.
fn over_links(kinds: &[LoadKind], shape: Shape, random: &mut Random) -> Call {
    let mut call = load_of_shape(random.pick(kinds), shape, random);
    call.spread(random);
    call
}

/// A load over several links with the limits of the kind.
pub(crate) fn limited(kind: LoadKind, shape: Shape, random: &mut Random) -> Call {
    let with_odd = [LoadKind::SpreadLinks, LoadKind::OddLinks];
    match kind {
        LoadKind::ExactLimits => {
            let mut call = load_of_shape(random.pick(&with_odd), shape, random);
            call.limit_exactly();
            call
        }
        LoadKind::LinkOverByOne => {
            let with_cells = [LoadKind::Full, LoadKind::ManyOdd, LoadKind::CyclicBand];
            let mut call = over_links(&with_cells, shape, random);
            call.limit_short(random);
            call
        }
        LoadKind::RandomLimits => {
            let mut call = load_of_shape(random.pick(&with_odd), shape, random);
            call.limit_at_random(random);
            call
        }
        _ => over_links(&TO_SPREAD, shape, random),
    }
}

//! Build, by the splitting rules: each group of odd counts is searched from its first count, and its two halves told apart by
//! distance.

use crate::admission::{check_frame, check_list, check_loads};
use crate::flow::{Flow, Limits, LINKS};
use crate::refusal::Refusal;
use crate::work::settled;

/// The half of a block to which an odd count gives its extra cell.
#[derive(Clone, Copy, PartialEq)]
enum Half {
    First,
    Second,
}

impl Half {
    fn opposite(self) -> Half {
        match self {
            Half::First => Half::Second,
            Half::Second => Half::First,
        }
    }
}

/// The cells that a flow has in a block, one or more; 0 is an even count, of which each half has 0.
#[derive(Clone, Copy)]
struct Count {
    number: u16,
    flow: Flow,
    cells: u64,
}

impl Count {
    fn is_odd(&self) -> bool {
        self.cells % 2 == 1
    }
}

/// Fills the frame and says how many odd counts were settled, or gives the first refusal of 1, 2, 3, 21, 22, 23, 4, 5, 6, 24 and
/// leaves it alone.
pub fn build(
    ports: u64,
    slots: u64,
    list: &[u16],
    limits: &Limits,
    frame: &mut [u16],
) -> Result<u64, Refusal> {
    let flows = check_list(ports, slots, list)?;
    check_frame(ports, slots, frame)?;
    check_loads(ports, slots, &flows, limits)?;
    fill_block(ports, &counts_of(&flows), frame);
    Ok(settled(ports, frame))
}

/// The counts of the whole frame, by rising flow number.
fn counts_of(flows: &[Flow]) -> Vec<Count> {
    let numbered = (1..).zip(flows).filter(|(_, flow)| flow.cells > 0);
    let counts = numbered.map(|(number, &flow)| Count {
        number,
        flow,
        cells: flow.cells,
    });
    counts.collect()
}

/// Rule 1: a block of one slot is written out, a longer one is halved.
fn fill_block(ports: u64, counts: &[Count], block: &mut [u16]) {
    if block.len() as u64 == ports {
        fill_slot(counts, block);
        return;
    }
    let [first, second] = split(ports, counts);
    let (front, back) = block.split_at_mut(block.len() / 2);
    fill_block(ports, &first, front);
    fill_block(ports, &second, back);
}

/// Rule 6: each input has at most one count, of 1, which is its cell.
fn fill_slot(counts: &[Count], slot: &mut [u16]) {
    slot.fill(0);
    for count in counts {
        slot[count.flow.input as usize - 1] = count.number;
    }
}

/// Rule 2: shares a block's counts between its halves.
fn split(ports: u64, counts: &[Count]) -> [Vec<Count>; 2] {
    let groups = groups(counts, &partnerships(ports, counts));
    let favoured = favour_halves(counts.len(), &groups);
    [Half::First, Half::Second].map(|half| {
        let counts = counts.iter().zip(&favoured);
        let shares = counts.map(|(count, &choice)| Count {
            cells: count.cells / 2 + u64::from(choice == Some(half)),
            ..*count
        });
        shares.filter(|share| share.cells > 0).collect()
    })
}

/// The places, among the counts of a block, of a count's partners: at its input and at its output.
type Partners = [Option<usize>; 2];

/// Rule 3: the partners of each count of a block. At an output those of one link are partnered first, and then the single ones that
/// its links leave, by rising link.
fn partnerships(ports: u64, counts: &[Count]) -> Vec<Partners> {
    let mut partners = vec![[None; 2]; counts.len()];
    let odd = (0..counts.len()).filter(|&place| counts[place].is_odd());
    let odd: Vec<usize> = odd.collect();
    for port in 1..=ports {
        let at_input = places_of(&odd, |place| counts[place].flow.input == port);
        join_partners(&at_input, 0, &mut partners);
        let at_output = places_of(&odd, |place| counts[place].flow.output == port);
        let mut singles = Vec::new();
        for link in 1..=LINKS {
            let of_link = places_of(&at_output, |place| counts[place].flow.link == link);
            singles.extend(join_partners(&of_link, 1, &mut partners));
        }
        join_partners(&singles, 1, &mut partners);
    }
    partners
}

/// Those of some places that are asked for, in their order.
fn places_of(places: &[usize], asked: impl Fn(usize) -> bool) -> Vec<usize> {
    let asked = places.iter().filter(|&&place| asked(place));
    asked.copied().collect()
}

/// First with second, third with fourth, and so on, in the order given; the one that is left single, if any.
fn join_partners(odd: &[usize], side: usize, partners: &mut [Partners]) -> Option<usize> {
    let couples = odd.chunks_exact(2);
    let single = couples.remainder().first().copied();
    for couple in couples {
        partners[couple[0]][side] = Some(couple[1]);
        partners[couple[1]][side] = Some(couple[0]);
    }
    single
}

/// All odd counts joined by partnership, by how many partnerships each is away from the first of them, that of the lowest flow
/// number: an even number, as the first itself, or an odd number. By rule 4 the even ones favour one half and the odd ones the
/// other.
struct Group {
    even: Vec<usize>,
    odd: Vec<usize>,
}

/// The groups, taken by their first flow.
fn groups(counts: &[Count], partners: &[Partners]) -> Vec<Group> {
    let mut found = vec![false; counts.len()];
    let mut groups = Vec::new();
    for first in 0..counts.len() {
        if counts[first].is_odd() && !found[first] {
            groups.push(search_group(first, partners, &mut found));
        }
    }
    groups
}

/// Goes out from the first count one partnership at a time, until nobody new is reached.
fn search_group(first: usize, partners: &[Partners], found: &mut [bool]) -> Group {
    let [mut even, mut odd] = [Vec::new(), Vec::new()];
    let mut reached = vec![first];
    found[first] = true;
    while !reached.is_empty() {
        even.extend(&reached);
        reached = further(&reached, partners, found);
        odd.extend(&reached);
        reached = further(&reached, partners, found);
    }
    Group { even, odd }
}

/// The partners of these counts that were not found before.
fn further(reached: &[usize], partners: &[Partners], found: &mut [bool]) -> Vec<usize> {
    let all = reached.iter().flat_map(|&place| partners[place]);
    all.flatten()
        .filter(|&partner| !std::mem::replace(&mut found[partner], true))
        .collect()
}

impl Group {
    /// Whether the group has an odd number of counts, so that one half gets one more of its extra cells.
    fn is_odd(&self) -> bool {
        (self.even.len() + self.odd.len()) % 2 == 1
    }

    /// Rule 5: the half that the first count favours, where the larger share of an odd group goes to the half `larger_to`.
    fn half_of_first(&self, larger_to: Half) -> Half {
        if !self.is_odd() {
            Half::First
        } else if self.even.len() > self.odd.len() {
            larger_to
        } else {
            larger_to.opposite()
        }
    }
}

/// Rule 5: the half each odd count favours; even counts favour none. Of the odd groups the first, the third, the fifth and
/// so on give their larger share to the first half, the others to the second.
fn favour_halves(places: usize, groups: &[Group]) -> Vec<Option<Half>> {
    let mut favoured = vec![None; places];
    let mut larger_to = Half::First;
    for group in groups {
        let half = group.half_of_first(larger_to);
        for &place in &group.even {
            favoured[place] = Some(half);
        }
        for &place in &group.odd {
            favoured[place] = Some(half.opposite());
        }
        if group.is_odd() {
            larger_to = larger_to.opposite();
        }
    }
    favoured
}

//! Builders that break a splitting rule.

use calls::Built;
use loads::{flows_of, Flow, LINKS};

use crate::broken::{sixteen_bit_admit, Asked};

/// Shares the counts of a block, one for each flow, between its first and its second half.
type Splitter = fn(&[Flow], &[u16]) -> [Vec<u16>; 2];

/// Refuses as the reference does, else splits in a way of its own.
fn build_by(split: Splitter, asked: Asked, frame: &mut [u16]) -> Built {
    let settled = asked.build(frame)?;
    fill_frame(split, asked, frame);
    Ok(settled)
}

fn fill_frame(split: Splitter, asked: Asked, frame: &mut [u16]) {
    let flows = flows_of(asked.list);
    let counts: Vec<u16> = flows.iter().map(|flow| flow.cells).collect();
    fill_block(split, asked.ports as usize, &flows, &counts, frame);
}

/// Writes what fits of a block: where two cells claim an input, the later one stays.
fn fill_block(split: Splitter, ports: usize, flows: &[Flow], counts: &[u16], block: &mut [u16]) {
    if block.len() > ports {
        let [first, second] = split(flows, counts);
        let (front, back) = block.split_at_mut(block.len() / 2);
        fill_block(split, ports, flows, &first, front);
        fill_block(split, ports, flows, &second, back);
        return;
    }
    block.fill(0);
    for (number, (flow, &count)) in (1..).zip(flows.iter().zip(counts)) {
        if count > 0 {
            block[flow.input] = number;
        }
    }
}

/// Halves every count, the extra cell of an odd one going where it is told.
fn halve(counts: &[u16], extra_first: impl Fn(usize) -> bool) -> [Vec<u16>; 2] {
    let half = |first: bool| {
        let counts = counts.iter().enumerate();
        let share = counts.map(|(place, &count)| {
            let extra = count % 2 == 1 && extra_first(place) == first;
            count / 2 + u16::from(extra)
        });
        share.collect()
    };
    [half(true), half(false)]
}

/// Extra cells all to the first half, flow by flow.
pub fn extra_to_first_half(asked: Asked, frame: &mut [u16]) -> Built {
    build_by(|_, counts| halve(counts, |_| true), asked, frame)
}

/// Partners at inputs only.
pub fn partners_at_inputs_only(asked: Asked, frame: &mut [u16]) -> Built {
    let split: Splitter = |flows, counts| {
        let odd_before = |place: usize| {
            let same = |other: &usize| flows[*other].input == flows[place].input;
            let odd = (0..place).filter(|&other| counts[other] % 2 == 1);
            odd.filter(same).count()
        };
        halve(counts, |place| odd_before(place) % 2 == 0)
    };
    build_by(split, asked, frame)
}

/// At each odd count its partner.
type Partners = Vec<Option<usize>>;

/// The odd counts of flows that are asked for, by rising flow number.
fn odd_of(flows: &[Flow], counts: &[u16], asked: impl Fn(&Flow) -> bool) -> Vec<usize> {
    let odd = (0..counts.len()).filter(|&place| counts[place] % 2 == 1);
    odd.filter(|&place| asked(&flows[place])).collect()
}

/// Partners first with second, third with fourth, and so on; the one that is left.
fn couple(order: &[usize], partners: &mut Partners) -> Option<usize> {
    let couples = order.chunks_exact(2);
    let single = couples.remainder().first().copied();
    for couple in couples {
        partners[couple[0]] = Some(couple[1]);
        partners[couple[1]] = Some(couple[0]);
    }
    single
}

fn at_inputs(flows: &[Flow], counts: &[u16]) -> Partners {
    let mut partners = vec![None; counts.len()];
    for port in 0..16 {
        let odd = odd_of(flows, counts, |flow| flow.input == port);
        couple(&odd, &mut partners);
    }
    partners
}

/// Those of one link first, and then the single ones, which come by rising link, in the order that is made of them.
fn by_links(flows: &[Flow], counts: &[u16], order: fn(&mut Vec<usize>)) -> Partners {
    let mut partners = vec![None; counts.len()];
    for output in 0..16 {
        let links = (0..LINKS).map(|link| {
            odd_of(flows, counts, |flow| {
                (flow.output, flow.link) == (output, link)
            })
        });
        let singles = links.filter_map(|odd| couple(&odd, &mut partners));
        let mut singles: Vec<usize> = singles.collect();
        order(&mut singles);
        couple(&singles, &mut partners);
    }
    partners
}

/// The rule as it is.
fn at_outputs(flows: &[Flow], counts: &[u16]) -> Partners {
    by_links(flows, counts, |_| {})
}

/// A walk along each chain of partners in one direction only.
pub fn walk_one_way(asked: Asked, frame: &mut [u16]) -> Built {
    let split: Splitter = |flows, counts| {
        let favoured = walk_groups(flows, counts);
        halve(counts, |place| favoured[place] == Some(true))
    };
    build_by(split, asked, frame)
}

/// Whether each odd count favours the first half, the far side of a chain begun anew.
fn walk_groups(flows: &[Flow], counts: &[u16]) -> Vec<Option<bool>> {
    let partners = [at_inputs(flows, counts), at_outputs(flows, counts)];
    let mut favoured = vec![None; counts.len()];
    for start in (0..counts.len()).filter(|&place| counts[place] % 2 == 1) {
        let mut next = Some(start);
        let mut steps = 0;
        while let Some(place) = next.filter(|&place| favoured[place].is_none()) {
            favoured[place] = Some(steps % 2 == 0);
            next = partners[steps % 2][place];
            steps += 1;
        }
    }
    favoured
}

/// A group of odd counts: those that favour the same half as its first count, and those that favour the other.
struct Group {
    own: Vec<usize>,
    other: Vec<usize>,
}

impl Group {
    fn is_odd(&self) -> bool {
        (self.own.len() + self.other.len()) % 2 == 1
    }

    fn own_is_larger(&self) -> bool {
        self.own.len() > self.other.len()
    }
}

/// The groups by their first flow.
fn groups(counts: &[u16], partners: [&Partners; 2]) -> Vec<Group> {
    let mut taken = vec![false; counts.len()];
    let mut groups = Vec::new();
    for first in (0..counts.len()).filter(|&place| counts[place] % 2 == 1) {
        if !taken[first] {
            groups.push(walk_both_ways(first, partners, &mut taken));
        }
    }
    groups
}

/// The group of its first count, walked from there by its input and then by its output.
fn walk_both_ways(first: usize, partners: [&Partners; 2], taken: &mut [bool]) -> Group {
    let mut sides = [vec![first], vec![]];
    taken[first] = true;
    for begin in [0, 1] {
        let mut place = first;
        let mut steps = 0;
        while let Some(next) = partners[(begin + steps) % 2][place] {
            if std::mem::replace(&mut taken[next], true) {
                break;
            }
            steps += 1;
            sides[steps % 2].push(next);
            place = next;
        }
    }
    let [own, other] = sides;
    Group { own, other }
}

/// Splits group by group; whether the first count of a group favours the first half is asked with the number of groups before
/// it and the number of those of them that are odd.
fn split_by_groups(
    flows: &[Flow],
    counts: &[u16],
    own_first: impl Fn(&Group, usize, usize) -> bool,
) -> [Vec<u16>; 2] {
    let partners = [&at_inputs(flows, counts), &at_outputs(flows, counts)];
    split_groups(counts, &groups(counts, partners), own_first)
}

fn split_groups(
    counts: &[u16],
    groups: &[Group],
    own_first: impl Fn(&Group, usize, usize) -> bool,
) -> [Vec<u16>; 2] {
    let mut to_first = vec![false; counts.len()];
    let mut odd_before = 0;
    for (before, group) in groups.iter().enumerate() {
        let own = own_first(group, before, odd_before);
        let favouring = if own { &group.own } else { &group.other };
        for &place in favouring {
            to_first[place] = true;
        }
        odd_before += usize::from(group.is_odd());
    }
    halve(counts, |place| to_first[place])
}

/// Whether the first count of a group favours the first half, where the larger share of an odd group goes there or not.
fn by_larger(group: &Group, larger_first: bool) -> bool {
    !group.is_odd() || group.own_is_larger() == larger_first
}

/// The rules as they are, by the same walks as the builders that break them.
pub fn right_groups(asked: Asked, frame: &mut [u16]) -> Built {
    let split: Splitter =
        |flows, counts| split_by_partners(flows, counts, &at_outputs(flows, counts));
    build_by(split, asked, frame)
}

/// The first count of every group favours the first half.
pub fn first_count_to_first_half(asked: Asked, frame: &mut [u16]) -> Built {
    let split: Splitter = |flows, counts| split_by_groups(flows, counts, |_, _, _| true);
    build_by(split, asked, frame)
}

/// The larger share of every odd group goes to the first half.
pub fn larger_share_to_first_half(asked: Asked, frame: &mut [u16]) -> Built {
    let split: Splitter =
        |flows, counts| split_by_groups(flows, counts, |group, _, _| by_larger(group, true));
    build_by(split, asked, frame)
}

/// Even groups count in the turn.
pub fn even_groups_in_turn(asked: Asked, frame: &mut [u16]) -> Built {
    let split: Splitter = |flows, counts| {
        split_by_groups(flows, counts, |group, before, _| {
            by_larger(group, before % 2 == 0)
        })
    };
    build_by(split, asked, frame)
}

/// The larger share of the first odd group goes to the second half, that of the second to the first, and so on.
pub fn turn_begins_with_second_half(asked: Asked, frame: &mut [u16]) -> Built {
    let split: Splitter = |flows, counts| {
        split_by_groups(flows, counts, |group, _, odd_before| {
            by_larger(group, odd_before % 2 == 1)
        })
    };
    build_by(split, asked, frame)
}

/// The first count of an odd group takes the turn, and not its larger share.
pub fn first_count_takes_turn(asked: Asked, frame: &mut [u16]) -> Built {
    let split: Splitter = |flows, counts| {
        split_by_groups(flows, counts, |group, _, odd_before| {
            !group.is_odd() || odd_before % 2 == 0
        })
    };
    build_by(split, asked, frame)
}

/// Splits by the rules, with these partners at outputs.
fn split_by_partners(flows: &[Flow], counts: &[u16], at_outputs: &Partners) -> [Vec<u16>; 2] {
    let groups = groups(counts, [&at_inputs(flows, counts), at_outputs]);
    split_groups(counts, &groups, |group, _, odd_before| {
        by_larger(group, odd_before % 2 == 0)
    })
}

/// The single ones of an output by falling link.
pub fn singles_by_falling_link(asked: Asked, frame: &mut [u16]) -> Built {
    let split: Splitter = |flows, counts| {
        let partners = by_links(flows, counts, |singles| singles.reverse());
        split_by_partners(flows, counts, &partners)
    };
    build_by(split, asked, frame)
}

/// The single ones of an output by rising flow number.
pub fn singles_by_number(asked: Asked, frame: &mut [u16]) -> Built {
    let split: Splitter = |flows, counts| {
        let partners = by_links(flows, counts, |singles| singles.sort());
        split_by_partners(flows, counts, &partners)
    };
    build_by(split, asked, frame)
}

/// The single ones of an output left without partners.
pub fn singles_left(asked: Asked, frame: &mut [u16]) -> Built {
    let split: Splitter = |flows, counts| {
        let partners = by_links(flows, counts, |singles| singles.clear());
        split_by_partners(flows, counts, &partners)
    };
    build_by(split, asked, frame)
}

/// All odd counts of an output by rising flow number, whatever their links are.
pub fn links_not_first(asked: Asked, frame: &mut [u16]) -> Built {
    let split: Splitter = |flows, counts| {
        let on_one_link = flows.iter().map(|flow| Flow { link: 0, ..*flow });
        let on_one_link: Vec<Flow> = on_one_link.collect();
        split_by_partners(flows, counts, &at_outputs(&on_one_link, counts))
    };
    build_by(split, asked, frame)
}

/// Loads added in 16 bits: an overloaded port looks light.
pub fn sixteen_bit_loads(asked: Asked, frame: &mut [u16]) -> Built {
    let answer = asked.build(frame);
    let overloaded = answer.is_err_and(|refusal| matches!(refusal.number(), 5 | 6));
    if !overloaded {
        return answer;
    }
    sixteen_bit_admit(asked)?;
    fill_frame(|_, counts| halve(counts, |_| true), asked, frame);
    Ok(0)
}

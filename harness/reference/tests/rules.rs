//! Built frames held to the rules as they are stated, and rule 3 over links worked by hand.

mod ample;
mod held;

use held::{couples, Rules};
use loads::{flows_of, load, Flow, LoadKind, Random};

/// Rule 3: at each input the odd counts by rising flow number; at each output first those of one link, by rising flow number, and then
/// the single ones left, by rising link.
fn partnerships(ports: usize, flows: &[Flow], odd: &[usize]) -> Vec<[usize; 2]> {
    let odd_of = |asked: &dyn Fn(&Flow) -> bool| -> Vec<usize> {
        let asked = odd.iter().filter(|&&place| asked(&flows[place]));
        asked.copied().collect()
    };
    let mut partnerships = Vec::new();
    for port in 0..ports {
        let at_input = odd_of(&|flow| flow.input == port);
        partnerships.extend(couples(&at_input));
        let links =
            [0, 1, 2, 3].map(|link| odd_of(&|flow| flow.output == port && flow.link == link));
        partnerships.extend(links.iter().flat_map(|link| couples(link)));
        let single = |link: &Vec<usize>| link.last().copied().filter(|_| link.len() % 2 == 1);
        let singles: Vec<usize> = links.iter().filter_map(single).collect();
        partnerships.extend(couples(&singles));
    }
    partnerships
}

#[test]
fn frames_obey_the_rules() {
    let mut random = Random::new(6);
    let mut groups = [0; 2];
    for kind in LoadKind::FITTING {
        for _ in 0..60 {
            let call = load(kind, &mut random);
            let mut frame = vec![0xa5a5; call.frame_length];
            let answer =
                reference::build(call.ports, call.slots, &call.list, &call.limits, &mut frame);
            answer.expect("the load fits");
            let (ports, flows) = (call.ports as usize, flows_of(&call.list));
            let rules = Rules {
                ports,
                counts: flows.len(),
                place_of: &|_, entry| usize::from(entry) - 1,
                partnerships: &|odd| partnerships(ports, &flows, odd),
            };
            rules.hold_blocks(&frame, &mut groups);
        }
    }
    assert!(groups.iter().all(|&number| number > 10_000), "{groups:?}");
}

/// The flow in each slot of a frame of four slots, 0 for none, where one flow of one cell goes from each input to output 1, input 1's
/// by the first of these links, input 2's by the second, and so on.
fn one_output<const FLOWS: usize>(links: [u16; FLOWS]) -> [u16; 4] {
    let flows = (1..)
        .zip(links)
        .flat_map(|(input, link)| [input, 1, 1, link]);
    let list: Vec<u16> = flows.collect();
    let mut frame = vec![0xa5a5; 4 * FLOWS];
    let answer = ample::build(FLOWS as u64, 4, &list, &mut frame);
    answer.expect("four cells or fewer fit four slots");
    let mut slots = frame.chunks(FLOWS);
    [(); 4].map(|()| slots.next().map_or(0, |slot| slot.iter().sum()))
}

/// Flows 1 and 3 are on link 1, flows 2 and 4 on link 2. The four slots: 1 and 3 are partners and 2 and 4 are; flows 1 and 2 come first
/// in their groups and favour the first half. In each half both flows are the single ones of their links, and so partners: the lower
/// number comes first. By flow number alone 1 and 2 would be partners, and 3 and 4: slots 1, 3, 2, 4.
#[test]
fn flows_of_one_link_are_partnered_first() {
    assert_eq!(one_output([1, 2, 1, 2]), [1, 2, 3, 4]);
    assert_eq!(one_output([1, 1, 1, 1]), [1, 3, 2, 4]);
}

/// The single ones by link are flows 2, 3, 1, so that 2 and 3 are partners and flow 1 stays single. The group of flow 1 is the first
/// odd one and favours the first half; that of 2 and 3 is even, and 2 favours the first half. There 1 and 2 are partners, in the second
/// half flow 3 is alone. By rising flow number 1 and 2 would be partners, and 3 would favour the first half: slots 1, 3, 2.
#[test]
fn single_ones_are_not_partnered_by_flow_number() {
    assert_eq!(one_output([3, 1, 2]), [1, 2, 3, 0]);
}

/// Flows 1 and 2, of links 1 and 2, are partners, and flow 3 of link 3 stays single: it is the first odd group and favours the first
/// half with flow 1. By falling link 3 and 2 would be partners, and 1 and 2 in the first half: slots 1, 2, 3.
#[test]
fn single_ones_are_not_partnered_by_falling_link() {
    assert_eq!(one_output([1, 2, 3]), [1, 3, 2, 0]);
}

/// The single ones by link are flows 1, 3, 2, 4: the first with the second, the third with the fourth. So 1 and 2 favour the first half,
/// 3 and 4 the second. By flow number it would be slots 1, 3, 2, 4.
#[test]
fn four_single_ones() {
    assert_eq!(one_output([1, 3, 2, 4]), [1, 2, 3, 4]);
}

/// On link 1 flows 1 and 3 are partners and flow 4 is left; on link 2 flow 2 is. The single ones are 4 and 2, so that 2, the first of
/// their group, favours the first half. In the second half 3 and 4 are of one link.
#[test]
fn a_link_of_three_and_a_link_of_one() {
    assert_eq!(one_output([1, 2, 1, 1]), [1, 2, 3, 4]);
}

/// One flow of one cell from input 1 to each of four outputs: at an input the odd counts are partnered by flow number, whatever their
/// links are, 1 with 2 and 3 with 4.
#[test]
fn links_do_not_matter_at_an_input() {
    for links in [[1, 1, 1, 1], [4, 3, 2, 1], [1, 2, 1, 2]] {
        let flows = (1..)
            .zip(links)
            .flat_map(|(output, link)| [1, output, 1, link]);
        let list: Vec<u16> = flows.collect();
        let mut frame = [0xa5a5; 16];
        ample::build(4, 4, &list, &mut frame).expect("four cells fit four slots");
        let at_input_1 = frame.iter().step_by(4);
        assert!(at_input_1.eq(&[1, 3, 2, 4]), "{links:?}");
    }
}

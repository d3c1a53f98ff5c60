//! Builders that would be sent back are sent back.

use calls::{Answer, Calls, Class, Inspection, Reference, Refusal, Side, INPUT_SIDE, OUTPUT_SIDE};
use loads::{flows_of_matrix, list_of, load_beside, Random, FLOW_NUMBERS, MOST_FLOWS};
use reference::queue::{ahead_behind_a_switch, pass_row, Depth, Switch};
use reference::slots_each;
use reference::wait::{stretches, Allowed, Stretch};
use reference::wire::{demanded, deviation, repeat_deviation, Course, Frame, Run, Whose};
use tests::broken::{self, Broken, BuildCall};
use tests::{check_each_cell, check_paced, check_waits, run, Hits, Settings};

/// The cases of each kind that are enough to find most faults.
const COUNT: u64 = 12;

/// The number of cases of the named kinds that a builder fails, of so many of each.
fn failures_of(
    builder: &(impl Calls + calls::SheetProgram + Sync),
    kind: &str,
    count: u64,
) -> usize {
    let settings = Settings {
        seed: 5,
        first: 0,
        count,
        kind: kind.into(),
    };
    run(builder, &settings).failures.len()
}

/// The same of a few.
fn failures(builder: &(impl Calls + calls::SheetProgram + Sync), kind: &str) -> usize {
    failures_of(builder, kind, COUNT)
}

/// The frame a broken builder hands back for a load it accepts.
fn frame_of(builder: &Broken, ports: u64, slots: u64, list: &[u16]) -> Vec<u16> {
    let mut frame = vec![0xa5a5; (ports * slots) as usize];
    let answer = builder.build(ports, slots, list, &slots_each(slots), &mut frame);
    assert!(answer.is_ok(), "{answer:?}");
    frame
}

/// What it answers where each link may have as many cells as there are slots.
fn admitted(builder: &impl Calls, ports: u64, slots: u64, list: &[u16]) -> Answer {
    builder.admit(ports, slots, list, &slots_each(slots))
}

/// The same as the wire carries it.
fn carried(builder: &Broken, ports: u64, slots: u64, list: &[u16]) -> Frame {
    Frame {
        ports,
        slots,
        entries: frame_of(builder, ports, slots, list),
        list: list.to_vec(),
    }
}

/// What the inspector finds in a broken builder's frame.
fn inspected(builder: &Broken, ports: u64, slots: u64, list: &[u16]) -> Inspection {
    let frame = frame_of(builder, ports, slots, list);
    reference::inspect(Side::Input, ports, slots, list, &frame)
}

/// One flow for each pair of a matrix, in matrix order.
fn every_pair(ports: usize, matrix: &[u16]) -> Vec<u16> {
    list_of(&flows_of_matrix(ports, matrix))
}

/// A builder with this one call replaced, once the runner has sent it back.
macro_rules! sent_back {
    ($call:ident: $function:ident, $kind:expr) => {
        sent_back!($call: $function, $kind, COUNT)
    };
    ($call:ident: $function:ident, $kind:expr, $count:expr) => {{
        let builder = Broken {
            $call: broken::$function,
            ..Broken::default()
        };
        assert!(failures_of(&builder, $kind, $count) > 0);
        builder
    }};
}

#[test]
fn the_reference_is_not_sent_back() {
    assert_eq!(failures(&Reference, ""), 0);
    assert_eq!(failures(&Broken::default(), "build/"), 0);
}

#[test]
fn extra_cells_all_to_the_first_half() {
    let builder = sent_back!(build: extra_to_first_half, "build/");
    let fault = Inspection::PortTwice { slot: 1, port: 2 };
    assert_eq!(inspected(&builder, 2, 2, &every_pair(2, &[1; 4])), fault);
}

#[test]
fn partners_at_inputs_only() {
    let builder = sent_back!(build: partners_at_inputs_only, "build/");
    let fault = Inspection::PortTwice { slot: 1, port: 1 };
    assert_eq!(inspected(&builder, 2, 2, &every_pair(2, &[1; 4])), fault);
}

#[test]
fn walk_in_one_direction_only() {
    let builder = sent_back!(build: walk_one_way, "build/");
    let fault = Inspection::PortTwice { slot: 1, port: 1 };
    let list = every_pair(2, &[1, 1, 1, 0]);
    assert_eq!(inspected(&builder, 2, 2, &list), fault);
}

/// One cell from each port to its own number.
const OWN_NUMBERS: [u16; 16] = [1, 1, 1, 1, 2, 2, 1, 1, 3, 3, 1, 1, 4, 4, 1, 1];

#[test]
fn groups_by_another_walk_are_not_sent_back() {
    let builder = Broken {
        build: broken::right_groups,
        ..Broken::default()
    };
    assert_eq!(failures(&builder, "build/"), 0);
    assert_eq!(failures(&builder, "chain/"), 0);
}

#[test]
fn first_count_of_each_group_to_the_first_half() {
    let builder = sent_back!(build: first_count_to_first_half, "build/");
    let fault = Inspection::UnbalancedBlock { slot: 1, size: 4 };
    assert_eq!(inspected(&builder, 4, 4, &OWN_NUMBERS), fault);

    let frame = carried(&builder, 4, 4, &OWN_NUMBERS);
    assert_eq!(frame.entries[..4], [1, 2, 3, 4], "all cells are in slot 1");
    let course = Course::of(&[frame], Whose::Total);
    assert!(!course.has_its_share(course.furthest_run()));
}

#[test]
fn larger_share_always_to_the_first_half() {
    let builder = sent_back!(build: larger_share_to_first_half, "build/");
    let fault = Inspection::UnbalancedBlock { slot: 1, size: 4 };
    assert_eq!(inspected(&builder, 4, 4, &OWN_NUMBERS), fault);
}

/// Flow 1, then the partners 2 and 3 at input 2, then flow 4: two odd groups with an even one between.
#[test]
fn even_groups_counted_in_the_turn() {
    let builder = sent_back!(build: even_groups_in_turn, "build/");
    let list = [1, 1, 1, 1, 2, 2, 1, 1, 2, 3, 1, 1, 3, 4, 1, 1];
    let fault = Inspection::UnbalancedBlock { slot: 1, size: 2 };
    assert_eq!(inspected(&builder, 4, 2, &list), fault);
}

/// The total stays balanced: only the frame shows the fault.
#[test]
fn odd_groups_numbered_from_the_second() {
    let builder = sent_back!(build: turn_begins_with_second_half, "build/");
    assert_eq!(inspected(&builder, 4, 4, &OWN_NUMBERS), Inspection::Clean);
    let frame = frame_of(&builder, 4, 4, &OWN_NUMBERS);
    assert_eq!(frame, [0, 0, 0, 4, 0, 2, 0, 0, 0, 0, 3, 0, 1, 0, 0, 0]);
}

/// Both loads are one group of three counts. The first of them is in the larger share of the one, and in the smaller share of
/// the other.
#[test]
fn first_count_takes_the_turn_of_its_group() {
    let builder = sent_back!(build: first_count_takes_turn, "build/");
    let right = Broken::default();
    for (matrix, same) in [([0, 1, 1, 1], true), ([1, 1, 1, 0], false)] {
        let list = every_pair(2, &matrix);
        let frames = [&builder, &right].map(|builder| frame_of(builder, 2, 2, &list));
        assert_eq!(frames[0] == frames[1], same, "{matrix:?}");
    }
}

#[test]
fn the_other_tie() {
    let builder = sent_back!(build: other_tie, "build/");
    assert_eq!(inspected(&builder, 1, 4, &[1, 1, 3, 1]), Inspection::Clean);
}

/// Both lists have one cell of two flows on one pair: only the frame shows the fault.
#[test]
fn flows_of_one_pair_swapped() {
    let builder = sent_back!(build: flows_of_pair_swapped, "build/");
    let list = [1, 1, 1, 1, 1, 1, 1, 1];
    assert_eq!(inspected(&builder, 1, 2, &list), Inspection::Clean);
    assert_eq!(frame_of(&Broken::default(), 1, 2, &list), [1, 2]);
    assert_eq!(frame_of(&builder, 1, 2, &list), [2, 1]);
}

/// The flow of the later pair comes first in the list, and so gets its cell first.
#[test]
fn counts_by_rising_pair() {
    let builder = sent_back!(build: pairs_before_numbers, "build/");
    let list = [2, 1, 1, 1, 1, 1, 1, 1];
    assert_eq!(inspected(&builder, 2, 2, &list), Inspection::Clean);
    assert_eq!(frame_of(&Broken::default(), 2, 2, &list), [0, 1, 2, 0]);
    assert_eq!(frame_of(&builder, 2, 2, &list), [2, 0, 0, 1]);
}

/// A flow of one cell to output 1 from each of as many inputs as there are links, each on its link.
fn by_links(links: &[u16]) -> Vec<u16> {
    let flows = (1..)
        .zip(links)
        .flat_map(|(input, &link)| [input, 1, 1, link]);
    flows.collect()
}

/// The flow in each of four slots, 0 for none, that a builder makes of it.
fn slots_by_links(builder: &Broken, links: &[u16]) -> Vec<u16> {
    let ports = links.len();
    let frame = frame_of(builder, ports as u64, 4, &by_links(links));
    frame.chunks(ports).map(|slot| slot.iter().sum()).collect()
}

/// Flows 1 and 2, of the two lowest links, are partners, and flow 3 is single: only the frame shows the fault.
#[test]
fn single_ones_by_falling_link() {
    let builder = sent_back!(build: singles_by_falling_link, "build/odd-links", 60);
    sent_back!(build: singles_by_falling_link, "chain/");
    let links = [1, 2, 3];
    assert_eq!(slots_by_links(&Broken::default(), &links), [1, 3, 2, 0]);
    assert_eq!(slots_by_links(&builder, &links), [1, 2, 3, 0]);
    assert_eq!(
        inspected(&builder, 3, 4, &by_links(&links)),
        Inspection::Clean
    );
}

/// Flows 2 and 3, of the two lowest links, are partners: only the frame shows the fault.
#[test]
fn single_ones_by_rising_number() {
    let builder = sent_back!(build: singles_by_number, "build/odd-links", 60);
    let links = [3, 1, 2];
    assert_eq!(slots_by_links(&Broken::default(), &links), [1, 2, 3, 0]);
    assert_eq!(slots_by_links(&builder, &links), [1, 3, 2, 0]);
    assert_eq!(
        inspected(&builder, 3, 4, &by_links(&links)),
        Inspection::Clean
    );
}

/// Flows 1 and 4 are of one link. By number alone both are in the first half.
#[test]
fn links_not_partnered_first() {
    let builder = sent_back!(build: links_not_first, "build/spread-links");
    sent_back!(build: links_not_first, "chain/");
    let links = [1, 2, 1, 2];
    assert_eq!(slots_by_links(&Broken::default(), &links), [1, 2, 3, 4]);
    assert_eq!(slots_by_links(&builder, &links), [1, 3, 2, 4]);
    let fault = Inspection::UnbalancedBlock { slot: 1, size: 4 };
    assert_eq!(inspected(&builder, 4, 4, &by_links(&links)), fault);
    assert_eq!(slots_by_links(&builder, &[1; 4]), [1, 3, 2, 4]);
}

/// Three flows of three links, which are three groups: 1 and 3 are in the first half by their turn, and both in its first slot.
#[test]
fn single_ones_not_partnered() {
    let builder = sent_back!(build: singles_left, "build/spread-links");
    sent_back!(build: singles_left, "row/");
    let list = [1, 1, 1, 1, 2, 2, 1, 1, 3, 1, 1, 2];
    let fault = Inspection::PortTwice { slot: 1, port: 1 };
    assert_eq!(inspected(&builder, 3, 2, &list), fault);
}

#[test]
fn entries_that_are_not_the_flow() {
    let builder = sent_back!(build: outputs_for_flows, "build/");
    let fault = Inspection::WrongEntry { slot: 1, port: 1 };
    assert_eq!(inspected(&builder, 2, 2, &[1, 2, 2, 1]), fault);
    let builder = sent_back!(build: eight_bit_entries, "build/");
    let list = [[1, 1, 0, 1].repeat(256), vec![1, 1, 1, 1]].concat();
    assert_eq!(frame_of(&Broken::default(), 1, 1, &list), [257]);
    assert_eq!(frame_of(&builder, 1, 1, &list), [1]);
}

/// 513 flows, the last of them at a port outside, and a number left over.
#[test]
fn lists_that_are_too_long() {
    sent_back!(build: first_flows_built, "build/too-many-flows");
    sent_back!(admit: overlong_list, "admit/too-many-flows");
    sent_back!(admit: rest_left_out, "admit/not-whole");
    let too_many = [1, 1, 0, 1].repeat(MOST_FLOWS + 1);
    let builder = sent_back!(admit: a_flow_more, "admit/too-many-flows");
    assert_eq!(admitted(&builder, 1, 1, &too_many), Ok(()));
    let mut outside = too_many;
    outside[FLOW_NUMBERS * MOST_FLOWS] = 17;
    let builder = sent_back!(admit: ports_before_number, "admit/too-many-flows");
    assert_eq!(admitted(&builder, 1, 1, &outside), Err(Refusal::FlowPort));
    outside.push(0);
    let builder = sent_back!(admit: number_before_length, "admit/not-whole");
    assert_eq!(
        admitted(&builder, 1, 1, &outside),
        Err(Refusal::TooManyFlows)
    );
    assert_eq!(
        admitted(&Reference, 1, 1, &outside),
        Err(Refusal::ListLength)
    );
}

/// Flow 1 on link 0, and then at output 0 besides.
#[test]
fn links_outside_1_to_4() {
    let builder = sent_back!(admit: link_0_accepted, "admit/link-outside");
    let mut list = [1, 1, 1, 0];
    assert_eq!(admitted(&builder, 1, 1, &list), Ok(()));
    assert_eq!(admitted(&Reference, 1, 1, &list), Err(Refusal::FlowLink));
    list[1] = 0;
    let builder = sent_back!(admit: links_before_ports, "admit/port-outside");
    assert_eq!(admitted(&builder, 1, 1, &list), Err(Refusal::FlowLink));
    assert_eq!(admitted(&Reference, 1, 1, &list), Err(Refusal::FlowPort));
}

/// 24 of these numbers.
fn over(output: u64, link: u64, cells: u64) -> Answer {
    Err(Refusal::LinkLoad {
        output,
        link,
        cells,
    })
}

/// Output 1 is asked for nine cells of eight slots, all on link 2.
#[test]
fn links_looked_at_before_outputs() {
    let builder = sent_back!(admit: links_before_outputs, "admit/output-over-by-one");
    let list = [1, 1, 8, 2, 2, 1, 1, 2];
    let refusal = Refusal::OutputLoad { port: 1, cells: 9 };
    assert_eq!(admitted(&Reference, 2, 8, &list), Err(refusal));
    assert_eq!(admitted(&builder, 2, 8, &list), over(1, 2, 9));
}

/// Links 2 and 4 of output 1 and link 1 of output 2 have limits of 0.
#[test]
fn another_link_reported() {
    let list = [1, 1, 1, 4, 1, 1, 2, 2, 2, 2, 3, 1];
    let answer = |builder: &Broken| builder.admit(2, 8, &list, &[0; 64]);
    assert_eq!(answer(&Broken::default()), over(1, 2, 2));
    let builder = sent_back!(admit: highest_link, "admit/link-over-by-one");
    assert_eq!(answer(&builder), over(1, 4, 1));
    let builder = sent_back!(admit: highest_output, "admit/link-over-by-one");
    assert_eq!(answer(&builder), over(2, 1, 3));
}

/// Two ports; link 1 of output 1 has two cells and link 3 of output 2 one.
#[test]
fn other_limits_looked_at() {
    let list = [1, 1, 2, 1, 2, 2, 1, 3];
    let mut limits = [0; 64];
    limits[0] = 2;
    limits[6] = 1;
    let answer = |builder: &Broken| builder.admit(2, 8, &list, &limits);
    assert_eq!(answer(&Broken::default()), Ok(()));
    let builder = sent_back!(admit: limits_of_next_output, "admit/exact-limits");
    assert_eq!(answer(&builder), over(1, 1, 2));
    let builder = sent_back!(admit: limit_not_reached, "admit/exact-limits");
    assert_eq!(answer(&builder), over(1, 1, 2));
    let builder = sent_back!(admit: first_limits_only, "admit/link-over-by-one");
    limits[6] = 0;
    assert_eq!(builder.admit(2, 8, &list, &limits), Ok(()));
    assert_eq!(Reference.admit(2, 8, &list, &limits), over(2, 3, 1));
}

#[test]
fn limits_not_looked_at() {
    let builder = sent_back!(build: no_limits, "build/link-over-by-one");
    sent_back!(build: no_limits, "chain/", 60);
    let answer = |builder: &Broken| builder.build(1, 1, &[1, 1, 1, 4], &[0; 64], &mut [0]);
    assert_eq!(answer(&builder), Ok(0));
    assert_eq!(answer(&Broken::default()).map(|_| ()), over(1, 4, 1));
}

#[test]
fn lists_that_are_misread() {
    sent_back!(admit: eight_bit_ports, "admit/port-outside");
    sent_back!(admit: no_empty_list, "admit/no-flows");
}

#[test]
fn idle_frame() {
    let builder = sent_back!(build: idle_frame, "build/");
    let fault = Inspection::FlowCount { flow: 2 };
    assert_eq!(inspected(&builder, 2, 4, &[1, 1, 0, 1, 1, 2, 3, 1]), fault);
}

#[test]
fn fixed_frame() {
    let builder = sent_back!(build: fixed_frame, "build/");
    let fault = Inspection::FlowCount { flow: 1 };
    assert_eq!(inspected(&builder, 1, 4, &[1, 1, 3, 1]), fault);
}

#[test]
fn buffer_left_as_found() {
    let builder = sent_back!(build: as_found, "build/");
    let fault = Inspection::WrongEntry { slot: 1, port: 1 };
    assert_eq!(inspected(&builder, 2, 4, &[1, 2, 3, 1]), fault);
}

#[test]
fn all_loads_turned_away() {
    let builder = sent_back!(build: refuse_all, "build/");
    let answer = builder.build(1, 1, &[1, 1, 1, 1], &[1; 64], &mut [0]);
    assert!(answer.is_err());
}

#[test]
fn first_slots_copied_on() {
    let builder = sent_back!(build: copied_on, "build/");
    let fault = Inspection::FlowCount { flow: 1 };
    assert_eq!(inspected(&builder, 1, 4, &[1, 1, 3, 1]), fault);
}

#[test]
fn legal_but_bunched() {
    let builder = sent_back!(build: bunched, "build/");
    let fault = Inspection::UnbalancedBlock { slot: 1, size: 16 };
    assert_eq!(inspected(&builder, 1, 16, &[1, 1, 8, 1]), fault);

    let course = half_load(&builder, 16, 1);
    assert!(!course.has_its_share(course.furthest_run()));
    assert!(!course.has_its_share(course.furthest_from_a_frame()));
}

/// What one input is given that sends in half of the slots, its frame carried so many times.
fn half_load(builder: &Broken, slots: u64, times: usize) -> Course {
    let frame = carried(builder, 1, slots, &[1, 1, slots as u16 / 2, 1]);
    Course::of(&vec![frame; times], Class::Input { port: 1 })
}

/// Half of the slots, two at a time, are no further from their share than some loads may be, and further than this one may.
#[test]
fn beyond_the_bound_of_the_load_alone() {
    let builder = sent_back!(build: slots_exchanged, "lead/");
    sent_back!(build: slots_exchanged, "build/");
    for k in 4..=10 {
        let course = half_load(&builder, 1 << k, 2);
        let lead = course.lead(course.furthest_run()).abs();
        assert!(lead <= repeat_deviation(k) && 3 * lead <= demanded(k));
        let from_a_frame = course.lead(course.furthest_from_a_frame()).abs();
        assert!(from_a_frame <= deviation(k), "k = {k}");
        assert!(!course.has_its_share(course.nearest_run()), "k = {k}");
        let right = half_load(&Broken::default(), 1 << k, 2);
        assert!(right.has_its_share(right.nearest_run()), "k = {k}");
    }
}

/// A frame read backwards is as balanced as it was, and each class keeps to its bound: all cells together are late.
#[test]
fn a_total_that_is_late() {
    let builder = sent_back!(build: other_tie, "lead/");
    let frame = carried(&builder, 1, 4, &[1, 1, 3, 1]);
    let course = Course::of(&[frame], Whose::Total);
    assert!(course.has_its_share(course.nearest_run()));
    assert!(!course.total_has_its_share(course.nearest_of_total()));
}

/// How deep the second of two switches stands where the first has cells enough to send all the time.
fn second_of_two(builders: [&Broken; 2]) -> Depth {
    let row = builders.map(|builder| Switch {
        course: half_load(builder, 32, 3),
        delay: 2,
    });
    let mut arrivals = vec![0; row[0].course.given.len()];
    arrivals[0] = 1_000;
    pass_row(&row, &arrivals)[1].depth(ahead_behind_a_switch(5, 16))
}

#[test]
fn a_bunched_switch_in_a_row() {
    let even = Broken::default();
    let bunched = sent_back!(build: bunched, "row/");
    let depth = second_of_two([&even, &bunched]);
    assert!(depth.after > 0 && depth.before > 0, "{depth:?}");
    let depth = second_of_two([&bunched, &even]);
    assert!(depth.after > 0 && depth.before > 0, "{depth:?}");
    let depth = second_of_two([&even, &even]);
    assert!(depth.after <= 0 && depth.before <= 0, "{depth:?}");
}

/// What the wait check by itself says of a chain.
fn waits(chain: &[Frame], whose: impl Into<Whose>) -> Result<(), String> {
    let whose = whose.into();
    let (mut random, mut hits) = (Random::new(1), Hits::default());
    check_waits(&Course::of(chain, whose), whose, 1, &mut random, &mut hits)
}

const FIRST_FLOW: Class = Class::Flow { number: 1 };

/// Flow 1 alone in 16 slots, then beside flow 2 of the same input, which has all other slots. Bunched, its cells are at the beginning
/// of the one frame and at the end of the other.
fn first_flow(build: BuildCall, cells: u16) -> [Frame; 2] {
    let builder = Broken {
        build,
        ..Broken::default()
    };
    let loads = [[1, 1, cells, 1, 1, 2, 0, 1], load_beside(16, 16 - cells)];
    loads.map(|load| carried(&builder, 2, 16, &load))
}

#[test]
fn a_bunched_flow_waits_too_long() {
    for cells in 2..15 {
        let even = first_flow(broken::right_build, cells);
        assert_eq!(waits(&even, FIRST_FLOW), Ok(()));
        let bunched = first_flow(broken::bunched, cells);
        let complaint = waits(&bunched, FIRST_FLOW).unwrap_err();
        let idle = 2 * (16 - u64::from(cells));
        let said = format!(
            "{cells} cells or more in each frame has fewer than 1 in Run {{ start: {cells}, length: {idle} }}"
        );
        assert!(complaint.contains(&said), "{complaint}");
        let allowed = Allowed::by_load(4, cells.into()).longest(1);
        assert!(u128::from(idle) + 1 > allowed, "{complaint}");
    }
}

/// A check of one queue on a chain, fed at random.
type QueueCheck = fn(&Stretch, Whose, &mut Random, &mut Hits) -> Result<(), String>;

/// Of a hundred queues of a chain, run cell by cell, the number of those in which a cell waits too long.
fn queues_too_slow(chain: &[Frame], check: QueueCheck) -> usize {
    let course = Course::of(chain, FIRST_FLOW);
    let stretch = &stretches(&course, 1)[0];
    let mut hits = Hits::default();
    let verdicts = (0..100).map(|seed| {
        check(
            stretch,
            FIRST_FLOW.into(),
            &mut Random::new(seed),
            &mut hits,
        )
    });
    verdicts.filter(Result::is_err).count()
}

#[test]
fn cells_of_a_bunched_flow_wait_too_long() {
    for check in [check_each_cell, check_paced] {
        assert_eq!(
            queues_too_slow(&first_flow(broken::right_build, 8), check),
            0
        );
        assert!(queues_too_slow(&first_flow(broken::bunched, 8), check) > 10);
    }
}

/// Builders whose flows, inputs and outputs are as they should be: all cells together wait too long.
#[test]
fn a_total_waits_too_long() {
    let chain = |build| {
        let builder = Broken {
            build,
            ..Broken::default()
        };
        vec![carried(&builder, 4, 4, &OWN_NUMBERS); 2]
    };
    assert_eq!(waits(&chain(broken::right_build), Whose::Total), Ok(()));
    for build in [
        broken::first_count_to_first_half,
        broken::larger_share_to_first_half,
    ] {
        let chain = chain(build);
        for port in 1..=4 {
            assert_eq!(waits(&chain, Class::Input { port }), Ok(()));
        }
        let complaint = waits(&chain, Whose::Total).unwrap_err();
        let said = "4 cells or more in each frame has fewer than 1 in Run { start: 1, length: 3 }";
        assert!(complaint.contains(said), "{complaint}");
        assert_eq!(Allowed::by_load(2, 4).longest(1), 1);
    }
}

/// Frames with no cells of a class have nothing to wait for.
#[test]
fn an_idle_frame_is_asked_for_nothing() {
    let builder = Broken {
        build: broken::idle_frame,
        ..Broken::default()
    };
    let chain = [carried(&builder, 4, 4, &OWN_NUMBERS)];
    assert_eq!(waits(&chain, Whose::Total), Ok(()));
}

#[test]
fn loads_added_in_16_bits() {
    let builder = sent_back!(build: sixteen_bit_loads, "build/");
    let list = every_pair(2, &[65_535, 1, 1, 65_535]);
    assert!(builder.build(2, 4, &list, &[4; 64], &mut [0; 8]).is_ok());
    assert!(admitted(&builder, 2, 4, &list).is_err());
    let builder = sent_back!(admit: sixteen_bit_admit, "admit/");
    assert_eq!(admitted(&builder, 2, 4, &list), Ok(()));
}

/// Three cells in four slots, which have odd counts in the whole block and in its second half.
#[test]
fn odd_counts_miscounted() {
    let settled = |builder: Broken| builder.build(1, 4, &[1, 1, 3, 1], &[4; 64], &mut [0; 4]);
    assert_eq!(settled(Broken::default()), Ok(2));
    let builder = sent_back!(build: one_slot_counted, "build/");
    assert_eq!(settled(builder), Ok(5));
    let builder = sent_back!(build: second_halves_left_out, "build/");
    assert_eq!(settled(builder), Ok(1));
    let builder = sent_back!(build: even_counts_counted, "build/");
    assert_eq!(settled(builder), Ok(3));
    let builder = sent_back!(build: none_settled, "build/");
    assert_eq!(settled(builder), Ok(0));
}

#[test]
fn odd_counts_miscounted_in_chains_and_rows() {
    for kind in ["chain/", "row/"] {
        sent_back!(build: one_slot_counted, kind);
        sent_back!(build: second_halves_left_out, kind);
        sent_back!(build: even_counts_counted, kind);
        sent_back!(build: none_settled, kind);
    }
}

#[test]
fn buffer_cleared_before_a_refusal() {
    sent_back!(build: clears_before_refusing, "build/");
    sent_back!(build: clears_before_refusing, "chain/");
}

#[test]
fn chains_of_broken_frames() {
    sent_back!(build: idle_frame, "chain/");
    sent_back!(build: bunched, "chain/");
    sent_back!(build: as_found, "chain/");
}

#[test]
fn inspectors_that_do_not_look() {
    sent_back!(inspect: always_clean, "inspect/");
    sent_back!(inspect: legal_is_clean, "inspect/");
}

#[test]
fn halves_by_another_count_are_not_sent_back() {
    let builder = Broken {
        inspect: broken::right_halves,
        ..Broken::default()
    };
    assert_eq!(failures(&builder, "inspect/"), 0);
}

/// Flow 1 from input 1 and flow 2 from input 2, both to output 1; the entries of both in the place of the other's.
#[test]
fn inspectors_that_do_not_look_at_the_list() {
    let list = [1, 1, 1, 1, 2, 1, 1, 1];
    let builder = sent_back!(inspect: other_inputs_let_through, "inspect/");
    let swapped = [2, 0, 0, 1];
    assert_eq!(
        builder.inspect(INPUT_SIDE, 2, 2, &list, &swapped),
        Inspection::Clean
    );
    let builder = sent_back!(inspect: above_is_idle, "inspect/");
    let above = [1, 3, 0, 2];
    assert_eq!(
        builder.inspect(INPUT_SIDE, 2, 2, &list, &above),
        Inspection::Clean
    );
    let builder = sent_back!(inspect: flows_of_pair_added, "inspect/flows-swapped");
    let list = [1, 1, 1, 1, 1, 1, 1, 1];
    assert_eq!(
        builder.inspect(INPUT_SIDE, 1, 2, &list, &[1, 1]),
        Inspection::Clean
    );
}

#[test]
fn inspectors_that_leave_out_a_class() {
    let builder = sent_back!(inspect: no_flows, "inspect/flow");
    let list = [1, 1, 2, 1, 1, 1, 2, 1];
    let found = builder.inspect(INPUT_SIDE, 1, 4, &list, &[1, 1, 2, 2]);
    assert_eq!(found, Inspection::Clean);
    sent_back!(inspect: no_inputs, "inspect/input");
    sent_back!(inspect: no_outputs, "inspect/output");
}

/// Flows 1 and 2, both of link 1, are in the first half, and flow 3, of link 2, in the second.
#[test]
fn inspectors_that_leave_out_the_links() {
    let builder = sent_back!(inspect: no_links, "inspect/link");
    let list = [1, 1, 1, 1, 1, 1, 1, 1, 1, 1, 1, 2];
    let found = builder.inspect(INPUT_SIDE, 1, 4, &list, &[1, 2, 3, 0]);
    assert_eq!(found, Inspection::Clean);
    let fault = Inspection::UnbalancedBlock { slot: 1, size: 4 };
    let found = Reference.inspect(INPUT_SIDE, 1, 4, &list, &[1, 2, 3, 0]);
    assert_eq!(found, fault);
}

#[test]
fn inspectors_that_leave_out_the_total() {
    let builder = sent_back!(inspect: no_total, "inspect/total");
    let mut frame = [0; 16];
    frame[..4].copy_from_slice(&[1, 2, 3, 4]);
    let found = builder.inspect(INPUT_SIDE, 4, 4, &OWN_NUMBERS, &frame);
    assert_eq!(found, Inspection::Clean);

    let builder = sent_back!(inspect: two_slots_are_balanced, "inspect/total");
    let found = builder.inspect(INPUT_SIDE, 4, 2, &OWN_NUMBERS, &frame[..8]);
    assert_eq!(found, Inspection::Clean);
}

#[test]
fn views_of_something_else() {
    sent_back!(slot_view: empty_view, "view/");
    sent_back!(slot_view: neighbour_view, "view/");
    sent_back!(slot_view: copied_view, "view/");
    sent_back!(slot_view: unnumbered_view, "view/");
}

#[test]
fn counts_out_of_the_air() {
    sent_back!(service_count: share_for_count, "count/");
}

/// The entry of flow 1 stands at input 2 too, and one at input 1 is no flow.
#[test]
fn counts_of_other_entries() {
    let (list, frame) = ([1, 1, 1, 1], [1, 1, 9, 0]);
    let cells = |builder: &Broken, class| {
        let question = (class, (1, 2));
        let count = builder.service_count(INPUT_SIDE, 2, 2, &list, &frame, question);
        count.map(|count| count.cells)
    };
    let (flow, other) = (Class::Flow { number: 1 }, Class::Flow { number: 2 });
    let (input, output) = (Class::Input { port: 1 }, Class::Output { port: 1 });
    let right = Broken::default();
    let rights = [flow, input, output].map(|class| cells(&right, class));
    assert_eq!(rights, [Ok(2), Ok(2), Ok(2)]);
    let builder = sent_back!(service_count: output_by_place, "count/", 60);
    assert_eq!(cells(&builder, output), Ok(1));
    let builder = sent_back!(service_count: flow_by_place, "count/", 60);
    assert_eq!(cells(&builder, flow), Ok(1));
    let builder = sent_back!(service_count: flows_of_input_only, "count/", 60);
    assert_eq!(cells(&builder, input), Ok(1));
    let builder = sent_back!(service_count: unknown_flow_is_idle, "count/junk", 400);
    assert_eq!(cells(&builder, other), Ok(0));
    assert_eq!(cells(&right, other), Err(Refusal::FlowOrPort));
}

#[test]
fn leads_out_of_the_air() {
    sent_back!(service_count: lead_turned_round, "count/");
    sent_back!(service_count: load_of_the_run, "count/");
    sent_back!(service_count: load_of_the_list, "count/");
    sent_back!(service_count: lead_of_short_runs, "count/");
    sent_back!(service_count: cut_lead, "count/");
    sent_back!(service_count: lead_turned_round, "lead/");
    sent_back!(service_count: load_of_the_run, "lead/");
    sent_back!(service_count: lead_of_short_runs, "lead/");
    sent_back!(service_count: cut_lead, "lead/");
}

#[test]
fn leads_of_broken_frames() {
    sent_back!(build: bunched, "lead/");
    sent_back!(build: idle_frame, "lead/");
    sent_back!(build: copied_on, "lead/");
    sent_back!(build: refuse_all, "lead/");
}

/// The bounds in parts and the cells to order of flows with 0 to 4 cells, each alone in four slots.
fn depths(builder: &Broken) -> [(u64, u64); 5] {
    [0, 1, 2, 3, 4].map(|cells| {
        let answer = builder.depth(1, 4, &[1, 1, cells, 1], FIRST_FLOW);
        let depth = answer.expect("the load fits");
        (depth.parts, depth.cells)
    })
}

#[test]
fn depths_by_halves_are_not_sent_back() {
    let builder = Broken {
        depth: broken::right_depth,
        ..Broken::default()
    };
    assert_eq!(failures(&builder, "depth/"), 0);
    assert_eq!(depths(&builder), [(0, 0), (6, 2), (4, 2), (6, 3), (0, 1)]);
}

#[test]
fn bounds_out_of_the_air() {
    let builder = sent_back!(depth: one_end_of_a_run, "depth/");
    assert_eq!(depths(&builder), [(0, 0), (3, 1), (2, 1), (3, 2), (0, 1)]);
    let builder = sent_back!(depth: smaller_half_first, "depth/");
    assert_eq!(depths(&builder), [(0, 0), (0, 1), (0, 1), (0, 1), (0, 1)]);
    let builder = sent_back!(depth: both_halves_larger, "depth/");
    assert_eq!(depths(&builder), [(0, 0), (24, 7), (16, 5), (8, 3), (0, 1)]);
    let builder = sent_back!(depth: first_half_only, "depth/");
    assert_eq!(depths(&builder), [(0, 0), (6, 2), (4, 2), (4, 2), (0, 1)]);
    let builder = sent_back!(depth: middle_only, "depth/");
    assert_eq!(depths(&builder), [(0, 0), (4, 2), (0, 1), (4, 2), (0, 1)]);
    for builder in [
        sent_back!(depth: whatever_the_load, "depth/"),
        sent_back!(depth: bound_of_demand_3, "depth/"),
    ] {
        assert_eq!(depths(&builder), [(6, 2), (6, 2), (6, 2), (6, 3), (6, 3)]);
    }
}

#[test]
fn other_cells_to_order() {
    let builder = sent_back!(depth: a_whole_cell_early, "depth/");
    assert_eq!(depths(&builder), [(0, 1), (6, 2), (4, 2), (6, 3), (0, 2)]);
    let builder = sent_back!(depth: never_early, "depth/");
    assert_eq!(depths(&builder), [(0, 0), (6, 1), (4, 1), (6, 2), (0, 1)]);
    let builder = sent_back!(depth: after_the_slot, "depth/");
    assert_eq!(depths(&builder), [(0, 0), (6, 2), (4, 1), (6, 2), (0, 0)]);
    let builder = sent_back!(depth: rounded_up, "depth/");
    assert_eq!(depths(&builder), [(0, 1), (6, 3), (4, 3), (6, 3), (0, 2)]);
}

/// Flows of one cell and of two from input 1, to outputs 1 and 2.
#[test]
fn depths_of_other_classes() {
    let list = [1, 1, 1, 1, 1, 2, 2, 1];
    let parts = |builder: &Broken, class| {
        let depth = builder.depth(2, 4, &list, class);
        depth.map(|depth| depth.parts)
    };
    let output = Class::Output { port: 2 };
    let right = Broken::default();
    let rights = [FIRST_FLOW, Class::Flow { number: 2 }, output].map(|class| parts(&right, class));
    assert_eq!(rights, [Ok(6), Ok(4), Ok(4)]);
    let builder = sent_back!(depth: next_flow, "depth/");
    assert_eq!(parts(&builder, FIRST_FLOW), Ok(4));
    let builder = sent_back!(depth: input_of_the_flow, "depth/");
    assert_eq!(parts(&builder, Class::Flow { number: 2 }), Ok(6));
    let builder = sent_back!(depth: input_for_output, "depth/");
    assert_eq!(parts(&builder, output), Ok(0));
    let builder = sent_back!(depth: unknown_flow_without_cells, "depth/");
    assert_eq!(parts(&builder, Class::Flow { number: 3 }), Ok(0));
    assert_eq!(
        parts(&right, Class::Flow { number: 3 }),
        Err(Refusal::FlowOrPort)
    );
}

/// Flow 1 has the four slots of input 1 and of output 1, and flow 2 five cells from input 2 to output 1.
#[test]
fn depths_of_overloads() {
    let list = [1, 1, 4, 1, 2, 1, 5, 1];
    let refusal = |builder: &Broken, number| {
        let answer = builder.depth(2, 4, &list, Class::Flow { number });
        answer.map_err(Refusal::numbers).err()
    };
    assert_eq!(refusal(&Broken::default(), 1), Some(vec![5, 2, 5]));
    let builder = sent_back!(depth: overloads_elsewhere, "depth/");
    assert_eq!(refusal(&builder, 1), None);
    assert_eq!(refusal(&builder, 2), Some(vec![5, 2, 5]));
    let builder = sent_back!(depth: outputs_before_inputs, "depth/");
    assert_eq!(refusal(&builder, 1), Some(vec![6, 1, 9]));
    let builder = sent_back!(depth: class_before_loads, "depth/");
    assert_eq!(refusal(&builder, 1), Some(vec![5, 2, 5]));
    assert_eq!(refusal(&builder, 3), Some(vec![12]));
}

/// Two cells on one link of four slots.
#[test]
fn depth_with_limits() {
    let answer = |builder: &Broken| builder.depth(1, 4, &[1, 1, 2, 3], FIRST_FLOW);
    assert!(answer(&Broken::default()).is_ok());
    let builder = sent_back!(depth: limits_of_a_quarter, "depth/");
    assert_eq!(answer(&builder).map(|_| ()), over(1, 3, 2));
}

/// Flow 1 goes from input 1 to output 2, flow 2 from input 2 to output 1, flow 3 from input 2 to output 2, flow 4 as flow 1.
const TURNED: [u16; 16] = [1, 2, 1, 1, 2, 1, 1, 1, 2, 2, 1, 1, 1, 2, 0, 3];

/// What a builder's Turn answers of one slot of two ports, and what it leaves in a buffer of two entries that are no flows, or in as
/// many as are asked for.
fn turned(builder: &Broken, side: u64, frame: [u16; 2], length: usize) -> (Answer, Vec<u16>) {
    let mut second = vec![9; length];
    let answer = builder.turn(side, 2, 1, &TURNED, &frame, &mut second);
    (answer, second)
}

/// Both ports are used, one of them, or none; on the other side the same.
#[test]
fn turns_to_something_else() {
    let right = Broken::default();
    for (by_inputs, by_outputs) in [([1, 2], [2, 1]), ([0, 3], [0, 3]), ([0, 2], [2, 0])] {
        let there = turned(&right, INPUT_SIDE, by_inputs, 2);
        assert_eq!(there, (Ok(()), by_outputs.to_vec()));
        let back = turned(&right, OUTPUT_SIDE, by_outputs, 2);
        assert_eq!(back, (Ok(()), by_inputs.to_vec()));
    }
    let builder = sent_back!(turn: idle_places_left, "turn/built");
    assert_eq!(turned(&builder, INPUT_SIDE, [0, 2], 2).1, [2, 9]);
    let builder = sent_back!(turn: first_flow_of_the_pair, "turn/built");
    assert_eq!(turned(&builder, INPUT_SIDE, [4, 2], 2).1, [2, 1]);
    let builder = sent_back!(turn: copied_as_it_stood, "turn/built");
    assert_eq!(turned(&builder, INPUT_SIDE, [1, 2], 2).1, [1, 2]);
    let builder = sent_back!(turn: only_clean_turned, "turn/legal");
    let refused = (Err(Refusal::Entries), vec![9, 9]);
    assert_eq!(turned(&builder, INPUT_SIDE, [1, 2], 2), refused);
    sent_back!(turn: only_clean_turned, "turn/damaged");
}

#[test]
fn turns_of_the_other_side() {
    let builder = sent_back!(turn: turn_of_other_side, "turn/built");
    let refused = (Err(Refusal::Entries), vec![9, 9]);
    assert_eq!(turned(&builder, INPUT_SIDE, [1, 2], 2), refused);
    assert_eq!(turned(&builder, OUTPUT_SIDE, [2, 1], 2), refused);
}

/// An entry at the place of another port, one above the list, and an output that both inputs send to.
#[test]
fn turns_that_do_not_look_at_the_entries() {
    let right = Broken::default();
    let refused = (Err(Refusal::Entries), vec![9, 9]);
    for frame in [[2, 0], [5, 0], [1, 3]] {
        assert_eq!(turned(&right, INPUT_SIDE, frame, 2), refused);
    }
    let builder = sent_back!(turn: other_places_let_through, "turn/any-entries", 60);
    sent_back!(turn: other_places_let_through, "turn/damaged", 60);
    assert_eq!(turned(&builder, INPUT_SIDE, [2, 0], 2).1, [2, 0]);
    assert_eq!(turned(&builder, INPUT_SIDE, [1, 3], 2), refused);
    let builder = sent_back!(turn: above_turned_to_idle, "turn/damaged");
    assert_eq!(turned(&builder, INPUT_SIDE, [5, 0], 2).1, [0, 0]);
    let builder = sent_back!(turn: later_entry_wins, "turn/damaged", 60);
    assert_eq!(turned(&builder, INPUT_SIDE, [1, 3], 2).1, [0, 3]);
    assert_eq!(turned(&builder, INPUT_SIDE, [2, 0], 2), refused);
}

/// The first slot is right and the second is not.
#[test]
fn refused_turns_that_have_written() {
    let after = |builder: &Broken| {
        let mut second = [9; 4];
        let answer = builder.turn(INPUT_SIDE, 2, 2, &TURNED, &[1, 2, 1, 3], &mut second);
        assert_eq!(answer, Err(Refusal::Entries));
        second
    };
    assert_eq!(after(&Broken::default()), [9; 4]);
    let builder = sent_back!(turn: turned_up_to_the_fault, "turn/damaged");
    assert_eq!(after(&builder), [2, 1, 9, 9]);
    let builder = sent_back!(turn: second_cleared, "turn/damaged");
    assert_eq!(after(&builder), [0; 4]);
}

/// A second buffer of one entry or of three, for a frame that does not turn or that is too long itself.
#[test]
fn second_buffers_of_other_lengths() {
    let right = Broken::default();
    let number = |answer: (Answer, Vec<u16>)| answer.0.map_err(Refusal::number);
    assert_eq!(number(turned(&right, INPUT_SIDE, [1, 3], 1)), Err(15));
    let builder = sent_back!(turn: entries_before_length, "turn/other-length");
    assert_eq!(number(turned(&builder, INPUT_SIDE, [1, 3], 1)), Err(14));
    let builder = sent_back!(turn: longer_second, "turn/other-length");
    assert_eq!(turned(&builder, INPUT_SIDE, [1, 2], 3).1, [2, 1, 9]);
    assert_eq!(number(turned(&builder, INPUT_SIDE, [1, 2], 1)), Err(15));
    let builder = sent_back!(turn: second_before_first, "turn/", 400);
    let lengths = |builder: &Broken| {
        let answer = builder.turn(INPUT_SIDE, 2, 2, &TURNED, &[1, 2], &mut [9; 4]);
        answer.map_err(Refusal::number)
    };
    assert_eq!(lengths(&right), Err(4));
    assert_eq!(lengths(&builder), Err(15));
}

/// Flow 1 in a slot by outputs, at the place of output 2.
#[test]
fn inspectors_of_the_other_side() {
    let list = &TURNED[..4];
    let found = |builder: &Broken| builder.inspect(OUTPUT_SIDE, 2, 1, list, &[0, 1]);
    assert_eq!(found(&Broken::default()), Inspection::Clean);
    let wrong = Inspection::WrongEntry { slot: 1, port: 2 };
    let builder = sent_back!(inspect: inspect_of_other_side, "inspect-by-outputs/");
    sent_back!(inspect: inspect_of_other_side, "inspect/");
    sent_back!(inspect: inspect_of_other_side, "turn/built");
    assert_eq!(found(&builder), wrong);
    let builder = sent_back!(inspect: inspect_by_inputs, "inspect-by-outputs/whole");
    sent_back!(inspect: inspect_by_inputs, "turn/built");
    assert_eq!(failures(&builder, "inspect/"), 0);
    assert_eq!(found(&builder), wrong);
}

/// The faults of frames by outputs; flows 2 and 3, of input 2, are both sent.
#[test]
fn inspectors_that_do_not_look_at_outputs() {
    let found = |builder: &Broken| builder.inspect(OUTPUT_SIDE, 2, 1, &TURNED, &[2, 3]);
    let twice = |port| Inspection::PortTwice { slot: 1, port };
    assert_eq!(found(&Broken::default()), twice(2));
    let kinds = "inspect-by-outputs/output-doubled";
    let builder = sent_back!(inspect: port_twice_by_place, kinds, 60);
    assert_eq!(found(&builder), twice(2), "the second entry stands there");
    let list = [1, 1, 1, 1, 1, 2, 1, 1, 2, 3, 1, 1];
    let other = builder.inspect(OUTPUT_SIDE, 3, 1, &list, &[1, 2, 3]);
    assert_eq!(other, twice(2), "output 2 in the place of input 1");
    sent_back!(inspect: always_clean, "inspect-by-outputs/");
    sent_back!(inspect: legal_is_clean, "inspect-by-outputs/total");
    sent_back!(inspect: other_inputs_let_through, "inspect-by-outputs/");
    sent_back!(inspect: above_is_idle, "inspect-by-outputs/");
    sent_back!(inspect: no_flows, "inspect-by-outputs/flow");
    sent_back!(inspect: no_inputs, "inspect-by-outputs/input");
    sent_back!(inspect: no_outputs, "inspect-by-outputs/output");
    sent_back!(inspect: no_links, "inspect-by-outputs/link");
    sent_back!(inspect: no_total, "inspect-by-outputs/total");
}

/// By outputs, flow 1 stands at output 1, and an entry that is no flow at output 2.
#[test]
fn counts_of_the_other_side() {
    let cells = |builder: &Broken, class| {
        let question = (class, (1, 1));
        let count = builder.service_count(OUTPUT_SIDE, 2, 1, &TURNED, &[1, 9], question);
        count.map(|count| count.cells)
    };
    let port = |port| [Class::Input { port }, Class::Output { port }];
    let [[input_1, output_1], [input_2, output_2]] = [port(1), port(2)];
    let all = [input_1, output_1, input_2, output_2];
    let counted = |builder: &Broken| all.map(|class| cells(builder, class));
    assert_eq!(counted(&Broken::default()), [1, 1, 0, 1].map(Ok));
    let builder = sent_back!(service_count: count_of_other_side, "count-by-outputs/", 60);
    sent_back!(service_count: count_of_other_side, "count/", 60);
    assert_eq!(counted(&builder), [1, 0, 1, 1].map(Ok));
    let builder = sent_back!(service_count: input_by_place, "count-by-outputs/", 60);
    assert_eq!(counted(&builder), [1, 1, 1, 1].map(Ok));
    let builder = sent_back!(service_count: output_by_flows, "count-by-outputs/", 60);
    assert_eq!(counted(&builder), [1, 0, 0, 1].map(Ok));
    let builder = sent_back!(service_count: flows_of_input_only, "count-by-outputs/", 60);
    assert_eq!(counted(&builder), [1, 1, 0, 0].map(Ok));
    sent_back!(service_count: flow_by_place, "count-by-outputs/", 60);
    sent_back!(service_count: lead_turned_round, "count-by-outputs/");
    sent_back!(service_count: load_of_the_list, "count-by-outputs/");
}

#[test]
fn sheets_without_an_answer() {
    sent_back!(respond: silent_refusal, "sheet/");
}

#[test]
fn sheets_by_pairs() {
    sent_back!(respond: old_print, "sheet/");
    sent_back!(respond: pair_only_once, "sheet/pair-repeated");
    sent_back!(respond: half_the_bytes, "sheet/most-flows");
}

#[test]
fn sheets_with_too_many_flows() {
    sent_back!(respond: line_of_21, "sheet/too-many-flows");
    sent_back!(respond: port_before_number, "sheet/too-many-flows");
}

/// Flow 2 has eight cells in 16 slots, then flow 1 alone is in the list.
fn shortened() -> [Frame; 2] {
    let lists = [vec![1, 1, 8, 1, 1, 1, 8, 1], vec![1, 1, 16, 1]];
    lists.map(|list| carried(&Broken::default(), 1, 16, &list))
}

/// The chain with each frame counted with the list of the next.
fn with_next_list(chain: &[Frame]) -> Vec<Frame> {
    let mut late = chain.to_vec();
    for (place, frame) in chain.iter().enumerate().skip(1) {
        late[place - 1].list.clone_from(&frame.list);
    }
    late
}

/// Whether a class, or the total, keeps to both bounds on every run.
fn keeps_its_share(course: &Course) -> bool {
    course.has_its_share(course.furthest_run())
}

#[test]
fn a_chain_counted_with_the_next_list() {
    let chain = shortened();
    for number in [1, 2] {
        let class = Class::Flow { number };
        assert!(keeps_its_share(&Course::of(&chain, class)));
    }
    let late = with_next_list(&chain);
    let class = Class::Flow { number: 1 };
    assert!(!keeps_its_share(&Course::of(&late, class)));
    let course = Course::of(&late, Class::Flow { number: 2 });
    assert!(
        course.given.iter().all(|slot| slot.cells == 0),
        "no list has it"
    );
}

/// A number above the list has no load there; with that of the last flow it would be behind in every slot.
#[test]
fn a_flow_above_the_list_given_the_last_load() {
    let chain = shortened();
    let mut course = Course::of(&chain, Class::Flow { number: 2 });
    let second = Run {
        start: 16,
        length: 16,
    };
    assert_eq!((course.cells(second), course.share(second)), (0, 0));
    assert!(keeps_its_share(&course));
    for slot in &mut course.given[16..] {
        slot.load = 16;
    }
    assert!(!keeps_its_share(&course));
}

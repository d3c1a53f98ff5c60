//! A flow, an input or an output, and how far it is ahead of its share along a frame.

use frame_builder::{depth, service_count, Refusal, Who};

use crate::frame::Frame;
use crate::request::ADVICE;

/// A run of the frame as it repeats: its first slot, its slots and its lead.
#[derive(Debug, Clone, Copy, PartialEq, Eq)]
pub struct Run {
    pub start: usize,
    pub length: usize,
    pub lead: i64,
}

/// The way of a flow, an input or an output through a frame. Nothing is rounded: heights are cells times slots, as leads are.
#[derive(Debug, PartialEq, Eq)]
pub struct Course {
    pub who: Who,
    /// What it is, at the beginning of a title.
    pub name: String,
    /// Its cells in the whole frame.
    pub load: usize,
    pub slots: i64,
    /// The lead of the first t slots, slots × cells so far − t × load; from t = 0 to t = slots.
    pub heights: Vec<i64>,
    /// The run that is farthest ahead of its share, and the one that is farthest behind.
    pub ahead: Run,
    pub behind: Run,
    /// The bound of any run of built frames that have its load in the list, as a height: what Depth answers.
    pub bound: i64,
}

impl Course {
    pub fn of(frame: &Frame, who: Who) -> Result<Course, String> {
        let name = name_of(frame, who)?;
        let (side, ports, slots) = (frame.side(), frame.ports(), frame.slots());
        let (list, entries) = (frame.list(), frame.entries());
        let refused = |refusal: Refusal| format!("{who}: {refusal}; {ADVICE}");
        let count = |start, length| {
            service_count(side, ports, slots, list, entries, who, start, length).map_err(refused)
        };
        let bound = depth(ports, slots, list, who).map_err(refused)?.parts as i64;
        let heights = (0..=slots).map(|length| count(1, length).map(|first| first.lead));
        let heights = heights.collect::<Result<Vec<i64>, String>>()?;
        let [ahead, behind] = [1, -1].map(|sign| farthest(&heights, sign));
        for run in [ahead, behind] {
            let answered = count(run.start, run.length)?.lead;
            assert_eq!(
                answered, run.lead,
                "the lead of a run is the difference of two others"
            );
        }
        Ok(Course {
            who,
            name,
            load: count(1, slots)?.cells,
            slots: slots as i64,
            heights,
            ahead,
            behind,
            bound,
        })
    }

    /// The k of 2^k slots.
    pub fn halvings(&self) -> i64 {
        i64::from(self.slots.trailing_zeros())
    }

    /// What the buffer of a flow from an even source holds at most while this frame alone repeats, as a height: `buffers-by-lead`.
    pub fn held_by_frame(&self) -> i64 {
        self.held(-self.behind.lead)
    }

    /// The same with any frames of so many slots that Build makes for this load: `buffers`.
    pub fn held_by_any(&self) -> i64 {
        self.held(self.bound)
    }

    /// What came in is less than a cell ahead of its share, what was sent at most this far behind, and the slot's own share is still there.
    fn held(&self, behind: i64) -> i64 {
        self.slots - 1 + behind + self.load as i64
    }

    /// Each t whose height is not that of t − 1, with its height.
    pub fn jumps(&self) -> impl Iterator<Item = (i64, i64)> + '_ {
        let slots = (1..).zip(self.heights.windows(2));
        slots
            .filter(|(_, ends)| ends[0] != ends[1])
            .map(|(slots, ends)| (slots, ends[1]))
    }

    /// The first t with the greatest height, and that height.
    pub fn highest(&self) -> (i64, i64) {
        self.first_best(1)
    }

    /// The first t with the least height, and that height.
    pub fn lowest(&self) -> (i64, i64) {
        self.first_best(-1)
    }

    /// The first t at which sign × height is greatest, and its height.
    fn first_best(&self, sign: i64) -> (i64, i64) {
        (0..)
            .zip(self.heights.iter().copied())
            .fold((0, 0), |best, next| {
                if sign * next.1 > sign * best.1 {
                    next
                } else {
                    best
                }
            })
    }
}

/// The name of a flow or port of the sheet, a flow's with its ports; one that the sheet does not have is refused.
fn name_of(frame: &Frame, who: Who) -> Result<String, String> {
    let ports = frame.ports();
    let there = match (who, frame.list().len()) {
        (Who::Flow(_), 0) => "the sheet has no flows".to_string(),
        (Who::Flow(_), flows) => format!("the sheet has flows 1 to {flows}"),
        _ => format!("the sheet has ports 1 to {ports}"),
    };
    let absent = || format!("{who}: {there}; {ADVICE}");
    let port = |port: usize| (1..=ports).contains(&port).then_some(port);
    let name = match who {
        Who::Flow(number) => {
            let place = number.checked_sub(1);
            let flow = place.and_then(|place| frame.list().get(place));
            flow.map(|flow| {
                format!(
                    "Flow {number}, input {} to output {}",
                    flow.input, flow.output
                )
            })
        }
        Who::Input(input) => port(input).map(|input| format!("Input {input}")),
        Who::Output(output) => port(output).map(|output| format!("Output {output}")),
    };
    name.ok_or_else(absent)
}

/// The run whose lead, times a sign, is greatest; of several the one with the least start, and then with the least length. A run's lead
/// is the height at its end less the one at its beginning, and after a turn of the frame the heights come again.
fn farthest(heights: &[i64], sign: i64) -> Run {
    let slots = heights.len() - 1;
    let height = |slot: usize| sign * heights[slot % slots];
    let lowest = (0..slots).min_by_key(|&before| height(before));
    let before = lowest.unwrap_or(0);
    let highest = (0..slots).min_by_key(|&length| -height(before + length));
    let length = highest.unwrap_or(0);
    Run {
        start: before + 1,
        length,
        lead: sign * (height(before + length) - height(before)),
    }
}

#[cfg(test)]
pub mod tests {
    use frame_builder::Flow;

    use super::*;
    use crate::frame::tests::{frame_of, sheet};

    /// The run of no slots.
    const NONE: Run = Run {
        start: 1,
        length: 0,
        lead: 0,
    };

    pub fn course(frame: &Frame, who: Who) -> Course {
        Course::of(frame, who).unwrap()
    }

    pub fn table7(who: Who) -> Course {
        course(&crate::frame::tests::table7(), who)
    }

    /// The way of a flow through a switch of one port that has cells of it in these slots, 1, and not in the others, 0.
    pub fn course_through(entries: &[u16]) -> Course {
        let sheet = sheet(1, entries.len(), &[Flow::new(1, 1, entries.iter().sum())]);
        let frame = Frame::of_entries(sheet, entries.to_vec()).unwrap();
        course(&frame, Who::Flow(1))
    }

    #[test]
    fn flow_5_of_table_7() {
        let course = table7(Who::Flow(5));
        assert_eq!(course.name, "Flow 5, input 4 to output 4");
        assert_eq!((course.load, course.slots, course.halvings()), (2, 4, 2));
        // Half a cell ahead after slot 1, half a cell behind after slot 3.
        assert_eq!(course.heights, [0, 2, 0, -2, 0]);
        let jumps: Vec<(i64, i64)> = course.jumps().collect();
        assert_eq!(jumps, [(1, 2), (2, 0), (3, -2), (4, 0)]);
        assert_eq!(course.highest(), (1, 2));
        assert_eq!(course.lowest(), (3, -2));
    }

    #[test]
    fn ports_of_table_7() {
        let full = table7(Who::Input(4));
        assert_eq!((full.load, full.heights.as_slice()), (4, &[0; 5][..]));
        let idle = table7(Who::Input(2));
        assert_eq!((idle.load, idle.heights.as_slice()), (0, &[0; 5][..]));
        assert_eq!(idle.jumps().count(), 0);
        let output = table7(Who::Output(1));
        assert_eq!((output.load, output.heights), (3, vec![0, 1, 2, 3, 0]));
        assert_eq!(output.name, "Output 1");
    }

    #[test]
    fn flows_of_one_pair_have_ways_of_their_own() {
        let frame = frame_of(include_str!("../../../examples/sound-and-picture.sheet"));
        let [picture, sound] = [1, 2].map(|flow| course(&frame, Who::Flow(flow)));
        assert_eq!((picture.load, sound.load), (9, 1));
        assert_eq!(sound.name, "Flow 2, input 1 to output 2");
        assert_eq!(sound.lowest(), (9, -9));
    }

    #[test]
    fn an_output_used_twice_counts_twice() {
        let sheet = sheet(2, 2, &[Flow::new(1, 1, 1), Flow::new(2, 1, 1)]);
        let frame = Frame::of_entries(sheet, vec![0, 0, 1, 2]).unwrap();
        let course = course(&frame, Who::Output(1));
        assert_eq!((course.load, course.heights), (2, vec![0, -2, 0]));
    }

    /// The run that examples/lead.c finds by asking for every one, as it prints it.
    #[test]
    fn the_farthest_runs_of_the_studio() {
        let frame = frame_of(include_str!("../../../examples/studio.sheet"));
        let Course { ahead, behind, .. } = course(&frame, Who::Flow(1));
        let printed = include_str!("../../../examples/lead.output");
        for (name, run) in [("ahead", ahead), ("behind", behind)] {
            let Run {
                start,
                length,
                lead,
            } = run;
            let line =
                format!("farthest {name}: {lead}/8 of a cell, in {length} slots from slot {start}");
            assert!(printed.lines().any(|printed| printed == line), "{line}");
        }
    }

    /// The first run whose lead, times a sign, is greatest, with the call asked for every one.
    fn farthest_asked(frame: &Frame, who: Who, sign: i64) -> Run {
        let (side, ports, slots) = (frame.side(), frame.ports(), frame.slots());
        let starts = (1..=slots).flat_map(|start| (1..slots).map(move |length| (start, length)));
        starts.fold(NONE, |best, (start, length)| {
            let (list, entries) = (frame.list(), frame.entries());
            let count = service_count(side, ports, slots, list, entries, who, start, length);
            let lead = count.unwrap().lead;
            if sign * lead > sign * best.lead {
                return Run {
                    start,
                    length,
                    lead,
                };
            }
            best
        })
    }

    #[test]
    fn no_run_is_farther() {
        let sheets = [
            include_str!("../../../examples/table7.sheet"),
            include_str!("../../../examples/studio.sheet"),
            include_str!("../../../examples/sound-and-picture.sheet"),
            include_str!("../../../examples/full.sheet"),
        ];
        for frame in sheets.map(frame_of) {
            let flows = (1..=frame.list().len()).step_by(15).map(Who::Flow);
            for who in flows.chain([Who::Input(1), Who::Output(2)]) {
                let found = course(&frame, who);
                assert_eq!(found.ahead, farthest_asked(&frame, who, 1), "{who}");
                assert_eq!(found.behind, farthest_asked(&frame, who, -1), "{who}");
            }
        }
    }

    #[test]
    fn a_run_that_keeps_its_share_is_of_no_slots() {
        let full = table7(Who::Input(4));
        assert_eq!((full.ahead, full.behind), (NONE, NONE));
        assert_eq!(course_through(&[1]).ahead, NONE);
    }

    /// What to order for a flow of m cells, with frames of any making, which is what Depth answers.
    fn ordered(slots: usize, m: usize) -> i64 {
        let entries: Vec<u16> = (0..slots).map(|slot| u16::from(slot < m)).collect();
        let course = course_through(&entries);
        assert_eq!(course.load, m);
        let order = course.held_by_any() / course.slots;
        let list = [Flow::new(1, 1, m as u16)];
        let answered = depth(1, slots, &list, Who::Flow(1)).unwrap().cells;
        assert_eq!(order, answered as i64);
        order
    }

    /// The lines of the first table of docs/BUFFERS.md, for 1,024 slots.
    #[test]
    fn what_to_order_is_in_the_table() {
        let page = include_str!("../../../docs/BUFFERS.md");
        let number = |text: &str| text.replace(',', "").parse::<usize>();
        let mut lines = 0;
        for line in page.lines().filter(|line| line.starts_with("| ")) {
            let cells: Vec<&str> = line.trim_matches('|').split('|').map(str::trim).collect();
            let [m, _, even, _, _] = cells[..] else {
                continue;
            };
            let (Ok(m), Ok(even)) = (number(m), number(even)) else {
                continue;
            };
            assert_eq!(ordered(1_024, m), even as i64, "{m} cells");
            lines += 1;
        }
        assert_eq!(lines, 45);
    }

    /// The cells that wait at most in the buffer of a flow whose source is even and begins with any part of a cell.
    fn deepest(course: &Course) -> i64 {
        let (slots, load) = (course.slots, course.load as i64);
        let arrived = |slot: i64| slot * load / slots;
        let queue = |phase: i64| {
            let (mut waiting, mut deepest) = (0, 0);
            for slot in 0..3 * slots {
                let place = (slot % slots) as usize;
                let sent = (course.heights[place + 1] - course.heights[place] + load) / slots;
                waiting += arrived(slot + phase + 1) - arrived(slot + phase);
                deepest = deepest.max(waiting);
                waiting = 0.max(waiting - sent);
            }
            deepest
        };
        (0..slots).map(queue).max().unwrap_or(0)
    }

    #[test]
    fn no_even_source_overruns_what_is_ordered() {
        let full = frame_of(include_str!("../../../examples/full.sheet"));
        for flow in (1..=full.list().len()).step_by(5) {
            let course = course(&full, Who::Flow(flow));
            let order = course.held_by_frame() / course.slots;
            assert!(deepest(&course) <= order, "flow {flow}");
            assert!(order <= course.held_by_any() / course.slots);
        }
        let studio = frame_of(include_str!("../../../examples/studio.sheet"));
        let course = course(&studio, Who::Flow(1));
        assert_eq!((deepest(&course), course.held_by_frame()), (2, 7 + 10 + 3));
    }

    #[test]
    fn what_the_sheet_does_not_have() {
        let table7 = crate::frame::tests::table7();
        for (who, part) in [
            (Who::Flow(0), "flow 0: the sheet has flows 1 to 5"),
            (Who::Flow(6), "flow 6: the sheet has flows 1 to 5"),
            (Who::Input(0), "input 0: the sheet has ports 1 to 4"),
            (Who::Output(17), "output 17: the sheet has ports 1 to 4"),
        ] {
            let what = Course::of(&table7, who).unwrap_err();
            assert_eq!(what, format!("{part}; {ADVICE}"));
        }
        let idle = Frame::build(sheet(4, 4, &[])).unwrap();
        let what = Course::of(&idle, Who::Flow(1)).unwrap_err();
        assert_eq!(what, format!("flow 1: the sheet has no flows; {ADVICE}"));
    }

    /// The load that strays furthest for each number of slots, as docs/BUFFERS.md has it, and no load by more.
    #[test]
    fn bounds_of_frames_of_1_to_1024_slots() {
        let by_hand = [0, 2, 6, 18, 46, 114, 270, 626, 1_422, 3_186, 7_054];
        for (k, by_hand) in (0..).zip(by_hand) {
            let slots = 1 << k;
            let list = |m: usize| [Flow::new(1, 1, m as u16)];
            let bounds = (0..=slots).map(|m| depth(1, slots, &list(m), Who::Flow(1)));
            let most = bounds.map(|bound| bound.unwrap().parts).max();
            assert_eq!(most, Some(by_hand));
            assert!(3 * by_hand <= (2 * k + 1) << k);
        }
        assert_eq!(table7(Who::Flow(5)).bound, 4);
    }

    #[test]
    fn every_flow_of_a_full_switch_keeps_within_half_the_bound_from_the_beginning() {
        let frame = frame_of(include_str!("../../../examples/full.sheet"));
        let flows = (1..=frame.list().len()).map(Who::Flow);
        let ports = (1..=16).flat_map(|port| [Who::Input(port), Who::Output(port)]);
        for who in flows.chain(ports) {
            let course = course(&frame, who);
            let within = |height: &i64| 2 * height.abs() <= course.bound;
            assert!(course.heights.iter().all(within), "{who}");
        }
    }
}

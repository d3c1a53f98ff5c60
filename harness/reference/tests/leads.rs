//! How far a lead can be from 0, and what the header says of it.

use reference::stray::stray;
use reference::wire::repeat_deviation;
use reference::{service_count, Class, Side};

const HEADER: &str = include_str!("../../../include/frame_builder.h");

/// One flow, from input 1 to output 1, whose entries count for it wherever they stand.
const LIST: [u16; 4] = [1, 1, 1, 1];

const FLOW: Class = Class::Flow { number: 1 };
const INPUT: Class = Class::Input { port: 1 };
const OUTPUT: Class = Class::Output { port: 1 };

fn lead(ports: u64, slots: u64, frame: &[u16], class: Class, start: u64, length: u64) -> i64 {
    let run = (start, length);
    let count = service_count(Side::Input, ports, slots, &LIST, frame, class, run);
    count.expect("the arguments are good").lead
}

/// The least and the greatest lead of all runs of up to two turns, in all frames whose entries are 0 and 1.
fn range(ports: u64, slots: u64, class: Class) -> (i64, i64) {
    let entries = 0..ports * slots;
    let frames = (0_u64..1 << entries.end).map(|bits| -> Vec<u16> {
        let entries = entries.clone();
        entries.map(|place| (bits >> place & 1) as u16).collect()
    });
    let runs = || (1..=slots).flat_map(|start| (0..=2 * slots).map(move |length| (start, length)));
    let leads = frames.flat_map(|frame| {
        runs().map(move |(start, length)| lead(ports, slots, &frame, class, start, length))
    });
    leads.fold((0, 0), |(least, most), lead| {
        (least.min(lead), most.max(lead))
    })
}

/// A run of half the slots that has all of the cells, or none of them, is as far from its share as any.
#[test]
fn the_furthest_of_all_frames() {
    for (ports, slots) in [(1, 1), (1, 2), (1, 4), (1, 8), (2, 2), (2, 4), (4, 2)] {
        let most = (slots * slots / 4) as i64;
        let of_all = if slots > 1 { most * ports as i64 } else { 0 };
        assert_eq!(range(ports, slots, FLOW), (-of_all, of_all));
        assert_eq!(range(ports, slots, INPUT), (-most, most));
        assert_eq!(range(ports, slots, OUTPUT), (-of_all, of_all));
    }
}

#[test]
fn the_furthest_of_the_largest_frame() {
    let frame = [[1; 8_192], [0; 8_192]].concat();
    let lead = |class, start, length| lead(16, 1_024, &frame, class, start, length);
    assert_eq!(lead(OUTPUT, 1, 512), 4_194_304);
    assert_eq!(lead(OUTPUT, 513, 512), -4_194_304);
    assert_eq!(lead(OUTPUT, 513, 999_936), -4_194_304);
    assert_eq!(lead(INPUT, 1, 512), 262_144);
    assert_eq!(lead(INPUT, 513, 512), -262_144);
    assert_eq!(lead(FLOW, 513, 512), -4_194_304);
    assert!(HEADER.contains("the lead, -4,194,304 to 4,194,304\n"));
}

/// The header's two rows, for a frame that Build made.
#[test]
fn the_bound_of_one_frame_in_the_header() {
    let row = |name: &str| -> Vec<i128> {
        let words = HEADER.lines().map(|line| line.split_whitespace());
        let mut rows = words.filter_map(|mut words| {
            let named = words.next() == Some("*") && words.next() == Some(name);
            let numbers = words.map(|word| word.replace(',', "").parse().ok());
            numbers.collect::<Option<_>>().filter(|_| named)
        });
        rows.next().expect("the header has the row")
    };
    let slots: Vec<i128> = (0..=10).map(|k| 1 << k).collect();
    let bounds: Vec<i128> = (0..=10).map(repeat_deviation).collect();
    assert_eq!(row("slots"), slots);
    assert_eq!(row("|lead|"), bounds);
}

/// How far the leads of the runs of one flow can go, the flow's cells halved evenly in whatever way.
#[derive(Clone, Copy)]
struct Reach {
    /// The greatest lead of the first slots of a block, none too.
    above: i128,
    /// The least.
    below: i128,
    /// The greatest distance from 0 of any run of the block.
    widest: i128,
}

/// The reach of a block of 2^j slots with so many cells, in a frame of 2^k slots with m.
fn reach(k: u32, m: i128, j: u32, cells: i128) -> Reach {
    if j == 0 {
        let lead = (cells << k) - m;
        return Reach {
            above: lead.max(0),
            below: lead.min(0),
            widest: lead.abs(),
        };
    }
    let less = cells / 2;
    let halved = |first: i128| {
        let one = reach(k, m, j - 1, first);
        let two = reach(k, m, j - 1, cells - first);
        let middle = (first << k) - (m << (j - 1));
        let across = (one.above - middle - two.below).max(middle + two.above - one.below);
        Reach {
            above: one.above.max(middle + two.above),
            below: one.below.min(middle + two.below),
            widest: one.widest.max(two.widest).max(across),
        }
    };
    let (one, two) = (halved(less), halved(cells - less));
    Reach {
        above: one.above.max(two.above),
        below: one.below.min(two.below),
        widest: one.widest.max(two.widest),
    }
}

/// In one frame that repeats, a flow's lead comes to what the header has, and no further: for each load, halved evenly in whatever
/// way, no further than twice its stray either, which two different frames come to.
#[test]
fn the_furthest_of_one_flow_halved_evenly() {
    for k in 0..=7 {
        let widest = (0..=1 << k).map(|m| {
            let widest = reach(k, m, k, m).widest;
            assert!(widest <= 2 * i128::from(stray(k, m as u64)), "{k} {m}");
            widest
        });
        assert_eq!(widest.max(), Some(repeat_deviation(k)), "k = {k}");
    }
}

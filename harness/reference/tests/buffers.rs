//! The tables and examples of docs/BUFFERS.md, held to their formula; the seam at which its bound is reached, and a frame
//! that breaks it.

mod ample;
mod page;

use std::process::Command;

use loads::{load_alone, load_beside};
use reference::order::{at_once, to_order};
use reference::page::grouped;
use reference::queue::{ahead_behind_a_switch, pass, pass_card, Depth, Source};
use reference::stray::stray;
use reference::wire::{demanded, deviation, repeat_deviation, Course, Frame};
use reference::{service_count, Class, Side};

const TEXT: &str = include_str!("../../../docs/BUFFERS.md");
const LEAD_OUTPUT: &str = include_str!("../../../examples/lead.output");
const DEPTH_OUTPUT: &str = include_str!("../../../examples/depth.output");

/// What to order from an even source.
fn even(k: u32, m: u64) -> u64 {
    to_order(k, m, at_once(k, 1))
}

/// What to order behind another switch.
fn behind(k: u32, m: u64) -> u64 {
    to_order(k, m, ahead_behind_a_switch(k, m))
}

/// The tables that the program prints, each a text.
fn printed() -> String {
    let output = Command::new(env!("CARGO_BIN_EXE_tables")).output();
    let output = output.expect("the program runs");
    assert!(output.status.success());
    String::from_utf8(output.stdout).expect("text")
}

/// The page has the tables of the program and no other.
#[test]
fn tables() {
    let given = page::tables(TEXT).into_iter().map(|lines| lines.join("\n"));
    let given: Vec<_> = given.collect();
    assert_eq!(printed(), given.join("\n\n") + "\n");
}

/// Numbers that were worked out by hand, so that the program is held to something too.
#[test]
fn rows_by_hand() {
    let printed = printed();
    for row in [
        // 1,023 + 2 × 960 + 64 = 3,007; 1,024 more; 4 × 960 + 64 = 3,904.
        "| 64 | 1.875 | 2 | 3 | 3 |",
        // 1,023 + 7,054 + 341 = 8,418; 9,442; 2 × 7,054 + 341 = 14,449.
        "| 341 | 6.889 | 8 | 9 | 14 |",
        // The strays of 1, 2, 3 and 4 cells are 3, 2, 3 and 0: 2, 2, 3 and 1 cells; behind another switch 3, 2, 3 and 1.
        "| 2 | 4 | 6/4 = 1.5 | 1 | 2, 2.00, 3 | 3, 2.25, 3 |",
        // By six parts 2, 2, 3 and 3 cells.
        "| 2 | 4 | 2.500 | 2.000 | 2 | 3 |",
    ] {
        assert!(printed.lines().any(|line| line == row), "missing: {row}");
    }
}

/// Whether a number is the sum or the difference of two powers of two, or one itself.
fn is_of_two_powers(m: u64) -> bool {
    (m & (m - 1)).count_ones() < 2 || (m + (m & m.wrapping_neg())).is_power_of_two()
}

/// The most that an even source needs in 1,024 slots, of such loads.
fn most_of(loads: fn(u64) -> bool) -> u64 {
    let cells = (1..=1_024).filter(|&m| loads(m)).map(|m| even(10, m));
    cells.max().expect("a load")
}

/// What the page says of round numbers, with fewer slots too.
#[test]
fn round_numbers() {
    assert_eq!(most_of(u64::is_power_of_two), 2);
    let furthest = |&m: &u64| i128::from(stray(10, m)) == deviation(10);
    let worst: Vec<u64> = (1..=1_024).filter(furthest).collect();
    assert_eq!(worst, [341, 683]);
    assert_eq!(most_of(|_| true), even(10, 341));
    for (k, m) in (0..10).flat_map(|k| (1..=1 << k).map(move |m| (k, m))) {
        let more = 1 << (10 - k);
        assert_eq!(stray(k, m) * more, stray(10, m * more));
        for cells in 1..4 {
            let fewer = to_order(10, m * more, at_once(10, cells));
            assert_eq!(to_order(k, m, at_once(k, cells)), fewer, "{k} {m}");
        }
        assert_eq!(behind(k, m), behind(10, m * more));
    }
    for (k, m) in (0..=10).flat_map(|k| (0..=1 << k).map(move |m| (k, m))) {
        assert_eq!(stray(k, (1 << k) - m), stray(k, m));
        assert!(6 * i128::from(stray(k, m)) <= demanded(k));
    }
}

/// The example of the studio's sheet, 3 cells in 8 slots, and that of 1,024 slots.
fn examples() -> Vec<String> {
    let parts = 2 * stray(3, 3);
    vec![
        format!("its buffer needs **{} cells**", even(3, 3)),
        format!("it answers {parts} and {}", even(3, 3)),
        format!("at most {parts}/8 of a cell before or behind its rate, and {} is", even(3, 3)),
        format!(
            "1,024 slots and a flow of 100 cells per frame, again at an even rate: order {} cells. If those 100 cells come from another switch: order {}.",
            even(10, 100),
            behind(10, 100)
        ),
        format!(
            "**Reserve 64 and not 63**: in a frame of 1,024 slots 64 cells need a buffer of {}, and 63 need one of {}.",
            even(10, 64),
            even(10, 63)
        ),
        format!(
            "The sum or the difference of two powers of two needs a buffer of {} at most.",
            most_of(is_of_two_powers)
        ),
        format!(
            "341 and 683 cells, a third and two thirds of the slots, are worst: they need {}.",
            even(10, 341)
        ),
        "The frame has 1,024 slots. Each number".into(),
        format!("take the line of m × 1,024/slots: half the cells in half the slots need the same. 3 cells in 8 slots are {} in 1,024.", 3 * 128),
        format!("Here are 3 cells in 8 slots, so that s is {}:", stray(3, 3)),
        format!("has k = 1, m = 1, a = 2 and {} = (a + 2s)/2 cells waiting", (2 + 2 * stray(1, 1)) / 2),
    ]
}

/// Picture and sound between the same two ports, 9 cells and 1 in 16 slots: as two flows, and as one of 10 cells with two even
/// sources.
fn sound_and_picture() -> Vec<String> {
    let [picture, sound, round] = [9, 1, 8].map(|cells| even(4, cells));
    let as_one = to_order(4, 10, 2 * at_once(4, 1));
    assert!(as_one < picture + sound);
    vec![
        format!("order **{picture} cells** for the picture and **{sound} cells** for the sound. With 8 cells the picture too would need {round}."),
        format!("As one line of 10 cells they would be one flow with one buffer, of {as_one} cells: two even sources, a = 2 × 15. That is fewer than {picture} and {sound}."),
    ]
}

/// Four links of 188 cells in 1,024 slots, each with a line that sends evenly.
fn the_card_of_a_link() -> Vec<String> {
    let (limit, strays) = (188, 2 * stray(10, 188));
    let cells = (1_023 + strays + limit) as f64 / 1_024.0;
    vec![
        "The frame has 1,024 slots, and the card of output 3 drives four links. The line of each has time for 188 cells while the output has time for 1,024, so that each of the four limits of output 3 is 188.".into(),
        format!(
            "Its buffers then need (1,023 + {} + {limit})/1,024 = {cells:.2}, and so **{} cells** each.",
            grouped(strays),
            even(10, limit)
        ),
        format!("five of {} cells, or a hundred of one, or one of 188", (limit - 3) / 5),
        format!("A list with {} cells for link 2 of output 3 is refused with 24, output 3, link 2 and 189 cells, and a list with 188 for each", limit + 1),
        format!("{} cells are fewer than the 1,024 of the output", 4 * limit),
        format!("A line with time for 192 cells would need **{} cells**", even(10, 192)),
        "asks a link for more (24), and spreads".into(),
    ]
}

/// The flow of the studio's sheet whose lead is printed.
fn leads() -> Vec<String> {
    vec![
        "Slots 2 and 3 have two where 6/8 is the share: 10/8 too many. Slots 4 to 8 and slot 1 after them have one where 18/8 is.".into(),
        format!("With 8 slots that is {}, and the flow above comes to 10.", repeat_deviation(3)),
        format!("(7 + 10 + 3)/8, so that {} cells are enough where Depth answers {}", (7 + 10 + 3) / 8, even(3, 3)),
        "has the second column for every m up to 527".into(),
        "2s/1,024 for m = a + b cells in 1,024 slots, as SRC Report 150 has it".into(),
        "For an m above 512 take 1,024 − m.".into(),
    ]
}

#[test]
fn sentences() {
    let sentences = [
        examples(),
        sound_and_picture(),
        the_card_of_a_link(),
        leads(),
    ];
    // k goes up to 10, and what is over 2^k is named.
    page::holds(TEXT, &sentences.concat(), &["10", "1/2", "4s/2"]);
}

/// A frame of 16 slots with eight cells of one flow in its first eight.
fn bunched() -> Frame {
    Frame {
        ports: 1,
        slots: 16,
        list: vec![1, 1, 8, 1],
        entries: [[1; 8], [0; 8]].concat(),
    }
}

#[test]
fn a_bunched_frame_stands_too_deep_at_the_card() {
    let course = Course::of(&[bunched()], Class::Flow { number: 1 });
    let depth = pass_card(&course, 8, 0);
    assert!(depth.after > 0 && depth.before > 0, "{depth:?}");
}

/// The depth of a flow's queue on a chain, fed as fast as it may be.
fn depth_on(chain: &[Frame], class: Class, source: Source) -> Depth {
    let course = Course::of(chain, class);
    pass(&course, &source.arrivals(&course)).depth(source.ahead)
}

#[test]
fn seam() {
    let frame_of = |list: [u16; 8]| {
        let mut entries = vec![0; 4];
        ample::build(2, 2, &list, &mut entries).unwrap();
        let list = list.to_vec();
        Frame {
            ports: 2,
            slots: 2,
            list,
            entries,
        }
    };
    let chain = [load_alone(1), load_beside(2, 1)].map(frame_of);
    let class = Class::Flow { number: 2 };
    let depth = depth_on(&chain, class, Source { from: 1, ahead: 2 });
    assert_eq!(depth.after, 0, "two cells wait, as the bound allows");
}

#[test]
fn a_bunched_frame_stands_too_deep() {
    let class = Class::Input { port: 1 };
    let depth = depth_on(&[bunched()], class, Source { from: 8, ahead: 16 });
    assert!(depth.after > 0 && depth.before > 0, "{depth:?}");
}

/// The slots of the studio's sheet, its ports, and the list of its flows.
fn studio() -> (u64, u64, Vec<u16>) {
    let sheet = include_str!("../../../examples/studio.sheet");
    let numbers = |line: &str| -> Vec<u16> {
        let words = line.split(|c: char| !c.is_ascii_digit());
        words.filter_map(|word| word.parse().ok()).collect()
    };
    let mut lines = sheet.lines().map(numbers);
    let [ports, slots] = [(); 2].map(|()| u64::from(lines.next().expect("a line")[0]));
    let list = lines.flat_map(|line| [line, vec![1]].concat());
    (ports, slots, list.collect())
}

/// The lead of flow 1 in the studio's frame, from every slot on and for every length below a turn; of those that are as far from 0 the
/// first, and of one start the shortest.
fn furthest_leads() -> [(i64, u64, u64); 2] {
    let (ports, slots, list) = studio();
    let mut frame = vec![0; (ports * slots) as usize];
    ample::build(ports, slots, &list, &mut frame).expect("the load fits");
    let runs = (1..=slots).flat_map(|start| (0..slots).map(move |length| (start, length)));
    let leads = runs.map(|(start, length)| {
        let flow = Class::Flow { number: 1 };
        let run = (start, length);
        let count = service_count(Side::Input, ports, slots, &list, &frame, flow, run);
        (count.expect("a run of the frame").lead, start, length)
    });
    let leads: Vec<_> = leads.collect();
    [1, -1].map(|sign| {
        let furthest = leads.iter().rev().max_by_key(|(lead, ..)| sign * lead);
        *furthest.expect("a run")
    })
}

/// What the example of the lead prints, which the tests of the C interface compare with what it does print.
#[test]
fn the_lead_of_the_studio_sheet() {
    let (_, slots, list) = studio();
    let [ahead, behind] = furthest_leads();
    let run = |(lead, start, length): (i64, u64, u64)| {
        format!("{lead}/{slots} of a cell, in {length} slots from slot {start}")
    };
    let waiting = at_once(3, 1) + behind.0.unsigned_abs();
    let [after, before] = [0, u64::from(list[2])].map(|more| (waiting + more) / slots);
    let lines = [
        format!("flow 1: {} cells in {slots} slots, lead 0", list[2]),
        format!("farthest ahead: {}", run(ahead)),
        format!("farthest behind: {}", run(behind)),
        format!("from an even source at most {after} cells wait after a slot; a buffer of {before} is enough"),
    ];
    assert_eq!(LEAD_OUTPUT, lines.join("\n") + "\n");
    let set_in = lines.map(|line| format!("    {line}\n")).concat();
    assert!(TEXT.contains(&format!("\n\n{set_in}\n")));
}

/// What the example of the depth prints, for each flow of the sheet.
#[test]
fn the_depths_of_the_studio_sheet() {
    let (_, slots, list) = studio();
    let k = slots.trailing_zeros();
    let flows = (1..).zip(list.chunks(4)).map(|(number, flow)| {
        let m = u64::from(flow[2]);
        let (parts, one) = (2 * stray(k, m), even(k, m));
        let four = to_order(k, m, at_once(k, 4));
        format!("flow {number}: load {m} in {slots} slots, at most {parts}/{slots} of a cell from its share\n  order {one} cells, and for 4 cells at once {four}\n")
    });
    assert_eq!(DEPTH_OUTPUT, flows.collect::<String>());
}

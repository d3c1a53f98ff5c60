//! Times a frame builder against the plain one, in turns within one run.

#![forbid(unsafe_code)]

mod budget;

use std::hint::black_box;
use std::process::ExitCode;
use std::time::Instant;

use bench::{loads_of, Flows, Load};
use frame_builder::{Inspection, Side, Who};
use loads::Shape;

use crate::budget::print_budget;

const USAGE: &str = "benchmark [--repetitions COUNT]";

/// The least time a sample should take, in nanoseconds.
const SAMPLE_TIME: f64 = 200_000.0;

/// The most that Inspect may take of the time of the Build that made the frame.
const INSPECT_LIMIT: Option<f64> = Some(2.0);

/// The most that Turn may take of the time of the Build that made the frame.
const TURN_LIMIT: Option<f64> = Some(0.15);

/// The most that Depth may take of the time of a Build of the same list.
const DEPTH_LIMIT: Option<f64> = Some(0.10);

/// Ports and slots, the load of every port, and the flows of a list.
#[derive(Clone, Copy)]
struct Size {
    shape: Shape,
    cells: usize,
    flows: Flows,
    /// The most that Build may take of the plain builder's time, where that is asked for.
    limit: Option<f64>,
}

const fn size(ports: usize, slots: usize, cells: usize, flows: Flows, limit: Option<f64>) -> Size {
    Size {
        shape: Shape { ports, slots },
        cells,
        flows,
        limit,
    }
}

/// One flow for each pair, then as many flows as there may be, and then one for each pair over four links, of all outputs and of one.
const SIZES: [Size; 10] = [
    size(16, 1_024, 1_024, Flows::EachPair, Some(0.40)),
    size(16, 1_024, 102, Flows::EachPair, Some(0.22)),
    size(4, 64, 64, Flows::EachPair, Some(0.45)),
    size(16, 16, 16, Flows::EachPair, None),
    size(16, 1_024, 1_024, Flows::Most, None),
    size(16, 1_024, 102, Flows::Most, None),
    size(16, 1_024, 1_024, Flows::FourLinks, None),
    size(16, 1_024, 102, Flows::FourLinks, None),
    size(16, 1_024, 1_024, Flows::LastOutput, None),
    size(16, 1_024, 102, Flows::LastOutput, None),
];

impl Size {
    fn name(self) -> String {
        let Shape { ports, slots } = self.shape;
        let flows = match self.flows {
            Flows::EachPair => "",
            Flows::Most => ", 512 flows",
            Flows::FourLinks => ", 4 links",
            Flows::LastOutput => ", 4 links of one",
        };
        format!("{ports} x {slots}, {} a port{flows}", self.cells)
    }
}

/// The start and the length of the runs that are counted.
const RUNS: [(usize, usize); 2] = [(1, 1_024), (512, 1_000_000)];

/// What the counts of an output are compared with.
const COUNTED: [(&str, Who); 2] = [("flow", Who::Flow(256)), ("input", Who::Input(16))];

/// The unit of a table's times: its nanoseconds, and the digits after the point.
struct Unit {
    nanoseconds: f64,
    digits: usize,
}

const NANOSECONDS: Unit = Unit {
    nanoseconds: 1.0,
    digits: 0,
};

const MICROSECONDS: Unit = Unit {
    nanoseconds: 1_000.0,
    digits: 3,
};

/// A row of the table: the medians of two kinds of work, in nanoseconds.
struct Row {
    name: String,
    left: f64,
    right: f64,
    /// The median over the repetitions, which a change of the clock's pace does not bend.
    ratio: f64,
    /// The most that the ratio may be, where that is asked for.
    limit: Option<f64>,
}

impl Row {
    fn is_above(&self) -> bool {
        self.limit.is_some_and(|limit| self.ratio > limit)
    }
}

/// The nanoseconds a piece of work takes once, measured over so many times.
fn sample(work: &mut impl FnMut(), times: u64) -> f64 {
    let start = Instant::now();
    for _ in 0..times {
        work();
    }
    start.elapsed().as_nanos() as f64 / times as f64
}

/// How often a piece of work is to be done for a sample of some length.
fn times_per_sample(work: &mut impl FnMut()) -> u64 {
    let mut times = 1;
    while sample(work, times) * (times as f64) < SAMPLE_TIME {
        times *= 2;
    }
    times
}

fn median(mut samples: Vec<f64>) -> f64 {
    samples.sort_by(f64::total_cmp);
    samples[samples.len() / 2]
}

/// Samples two pieces of work in turns, each first every other time.
fn compare(
    name: String,
    limit: Option<f64>,
    repetitions: usize,
    mut left: impl FnMut(),
    mut right: impl FnMut(),
) -> Row {
    let left_times = times_per_sample(&mut left);
    let right_times = times_per_sample(&mut right);
    let (mut left_samples, mut right_samples) = (Vec::new(), Vec::new());
    for repetition in 0..repetitions {
        if repetition % 2 == 0 {
            left_samples.push(sample(&mut left, left_times));
            right_samples.push(sample(&mut right, right_times));
        } else {
            right_samples.push(sample(&mut right, right_times));
            left_samples.push(sample(&mut left, left_times));
        }
    }
    let pairs = left_samples.iter().zip(&right_samples);
    Row {
        name,
        ratio: median(pairs.map(|(left, right)| left / right).collect()),
        left: median(left_samples),
        right: median(right_samples),
        limit,
    }
}

/// Hands out the items of a list in turn, without end.
fn in_turn<'l, T>(list: &'l [T]) -> impl FnMut() -> &'l T {
    let mut items = list.iter().cycle();
    move || items.next().expect("the list is not empty")
}

/// One Build of a load that fits; the odd counts that it settled.
fn build_once(load: &Load, frame: &mut [u16]) -> usize {
    let Shape { ports, slots } = load.shape;
    let answer = frame_builder::build(ports, slots, &load.list, load.limits, frame);
    black_box(frame);
    black_box(answer).expect("the load fits")
}

/// Times Build against the plain builder on loads of one size.
fn build_row(size: Size, repetitions: usize) -> Row {
    let Shape { ports, slots } = size.shape;
    let loads = loads_of(size.shape, size.cells, size.flows);
    let (mut next_left, mut next_right) = (in_turn(&loads), in_turn(&loads));
    let mut left_frame = vec![0; size.shape.frame_length()];
    let mut right_frame = left_frame.clone();
    let left = || {
        build_once(next_left(), &mut left_frame);
    };
    let right = || {
        let load = next_right();
        let built = plain::build(ports, slots, &load.numbers, &load.limits, &mut right_frame);
        assert!(black_box(built).is_some());
        black_box(&mut right_frame);
    };
    compare(size.name(), size.limit, repetitions, left, right)
}

/// The frames of some loads, each with its load.
fn frames_of(loads: &[Load]) -> Vec<(&Load, Vec<u16>)> {
    let frames = loads.iter().map(|load| {
        let mut frame = vec![0; load.shape.frame_length()];
        build_once(load, &mut frame);
        (load, frame)
    });
    frames.collect()
}

/// Times Inspect on clean frames against the builds that made them.
fn inspect_row(size: Size, repetitions: usize) -> Row {
    let loads = loads_of(size.shape, size.cells, size.flows);
    let clean = frames_of(&loads);
    let mut frame = vec![0; size.shape.frame_length()];
    let (mut next_left, mut next_right) = (in_turn(&clean), in_turn(&loads));
    let left = || {
        let (load, frame) = next_left();
        let Shape { ports, slots } = load.shape;
        let inspection = frame_builder::inspect(Side::Input, ports, slots, &load.list, frame);
        assert_eq!(black_box(inspection), Ok(Inspection::Clean));
    };
    let right = || {
        build_once(next_right(), &mut frame);
    };
    compare(size.name(), INSPECT_LIMIT, repetitions, left, right)
}

/// Times Turn of built frames of one side against the builds that made them.
fn turn_row(side: Side, size: Size, repetitions: usize) -> Row {
    let loads = loads_of(size.shape, size.cells, size.flows);
    let mut frames = frames_of(&loads);
    if side == Side::Output {
        for (load, frame) in &mut frames {
            let by_inputs = frame.clone();
            turn_once(Side::Input, load, &by_inputs, frame);
        }
    }
    let mut frame = vec![0; size.shape.frame_length()];
    let mut second = frame.clone();
    let (mut next_left, mut next_right) = (in_turn(&frames), in_turn(&loads));
    let left = || {
        let (load, frame) = next_left();
        turn_once(side, load, frame, &mut second);
    };
    let right = || {
        build_once(next_right(), &mut frame);
    };
    let by = match side {
        Side::Input => "by inputs",
        Side::Output => "by outputs",
    };
    let name = format!("{}, {by}", size.name());
    compare(name, TURN_LIMIT, repetitions, left, right)
}

/// One Turn of a frame of a side.
fn turn_once(side: Side, load: &Load, frame: &[u16], second: &mut [u16]) {
    let Shape { ports, slots } = load.shape;
    let answer = frame_builder::turn(side, ports, slots, &load.list, frame, second);
    black_box(second);
    assert_eq!(black_box(answer), Ok(()));
}

/// Times Depth of a flow, an input and an output in turn against builds of the same loads.
fn depth_row(size: Size, repetitions: usize) -> Row {
    let loads = loads_of(size.shape, size.cells, size.flows);
    let asked = loads
        .iter()
        .flat_map(|load| load.last_of_each().map(|who| (load, who)));
    let asked: Vec<_> = asked.collect();
    let mut frame = vec![0; size.shape.frame_length()];
    let (mut next_left, mut next_right) = (in_turn(&asked), in_turn(&loads));
    let left = || {
        let &(load, who) = next_left();
        let Shape { ports, slots } = load.shape;
        let depth = frame_builder::depth(ports, slots, &load.list, who);
        assert!(black_box(depth).is_ok());
    };
    let right = || {
        build_once(next_right(), &mut frame);
    };
    compare(size.name(), DEPTH_LIMIT, repetitions, left, right)
}

/// Times Service count of a flow and of an input against that of an output, over full frames.
fn count_rows((start, length): (usize, usize), repetitions: usize) -> [Row; 2] {
    let size = SIZES[0];
    let loads = loads_of(size.shape, size.cells, size.flows);
    let frames = frames_of(&loads);
    let count_once = |who, (load, frame): &(&Load, Vec<u16>)| {
        let (Shape { ports, slots }, list) = (load.shape, &load.list);
        let side = Side::Input;
        let count =
            frame_builder::service_count(side, ports, slots, list, frame, who, start, length);
        assert!(black_box(count).is_ok());
    };
    COUNTED.map(|(name, who)| {
        let (mut next_left, mut next_right) = (in_turn(&frames), in_turn(&frames));
        let left = || count_once(who, next_left());
        let right = || count_once(Who::Output(16), next_right());
        let name = format!("{name}, {length} from slot {start}");
        compare(name, None, repetitions, left, right)
    })
}

fn print_table(headings: [&str; 3], unit: Unit, rows: &[Row]) {
    let [name, left, right] = headings;
    println!(
        "{name:<34}{left:>24}{right:>24}{:>10}{:>10}",
        "ratio", "limit"
    );
    for row in rows {
        let [left, right] = [row.left, row.right].map(|time| {
            let (time, digits) = (time / unit.nanoseconds, unit.digits);
            format!("{time:.digits$}")
        });
        let limit = row.limit.map_or("-".into(), |limit| format!("{limit:.2}"));
        let above = if row.is_above() { "  above" } else { "" };
        let (name, ratio) = (&row.name, row.ratio);
        println!("{name:<34}{left:>24}{right:>24}{ratio:>10.3}{limit:>10}{above}");
    }
}

/// The number of repetitions named on the command line.
fn read_repetitions(words: &[String]) -> Option<usize> {
    match words {
        [] => Some(201),
        [option, count] if option == "--repetitions" => count.parse().ok().filter(|&n| n > 0),
        _ => None,
    }
}

fn main() -> ExitCode {
    let words: Vec<String> = std::env::args().skip(1).collect();
    let Some(repetitions) = read_repetitions(&words) else {
        eprintln!("{USAGE}");
        return ExitCode::from(2);
    };
    let builds = SIZES.map(|size| build_row(size, repetitions));
    let headings = ["build", "build median ns", "plain median ns"];
    print_table(headings, NANOSECONDS, &builds);
    println!();
    let inspections = [SIZES[0], SIZES[4]].map(|size| inspect_row(size, repetitions));
    let headings = ["inspect, clean", "inspect median ns", "build median ns"];
    print_table(headings, NANOSECONDS, &inspections);
    println!();
    let turns = [Side::Input, Side::Output].map(|side| turn_row(side, SIZES[0], repetitions));
    let headings = ["turn", "turn median ns", "build median ns"];
    print_table(headings, NANOSECONDS, &turns);
    println!();
    let depths = [SIZES[0], SIZES[1]].map(|size| depth_row(size, repetitions));
    let headings = ["depth", "depth median ns", "build median ns"];
    print_table(headings, NANOSECONDS, &depths);
    println!();
    let counts = RUNS.map(|run| count_rows(run, repetitions));
    let headings = [
        "count 16 x 1024, full",
        "count median us",
        "output median us",
    ];
    print_table(headings, MICROSECONDS, counts.as_flattened());
    println!();
    print_budget(repetitions);
    let others = inspections.iter().chain(&turns).chain(&depths);
    let mut limited = builds.iter().chain(others);
    ExitCode::from(u8::from(limited.any(Row::is_above)))
}

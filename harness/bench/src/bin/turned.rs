//! Builds full loads of PORTS × 2^K, with one flow for each pair and CELLS at every port, turns each frame to its outputs and back to its
//! inputs, for a count of the instructions of each.

#![forbid(unsafe_code)]

use std::hint::black_box;
use std::process::ExitCode;

use bench::{loads_of, Flows, Load, LOADS};
use frame_builder::Side;
use loads::Shape;

const USAGE: &str = "turned PORTS K CELLS, with PORTS from 1 to 16, K to 10 and CELLS to 2^K";

/// The loads that the words on the command line ask for.
fn read_loads(words: &[String]) -> Option<Vec<Load>> {
    let numbers: Option<Vec<usize>> = words.iter().map(|word| word.parse().ok()).collect();
    let [ports, k, cells] = numbers?[..] else {
        return None;
    };
    let asked = (1..=16).contains(&ports) && k <= 10 && cells <= 1_usize << k;
    let slots = 1 << k;
    asked.then(|| loads_of(Shape { ports, slots }, cells, Flows::EachPair))
}

/// Turn of a frame by inputs, a function of its own so that its instructions are counted by themselves.
#[inline(never)]
fn to_outputs(load: &Load, frame: &[u16], second: &mut [u16]) {
    turn(Side::Input, load, frame, second);
}

/// The same of a frame by outputs.
#[inline(never)]
fn to_inputs(load: &Load, frame: &[u16], second: &mut [u16]) {
    turn(Side::Output, load, frame, second);
}

fn turn(side: Side, load: &Load, frame: &[u16], second: &mut [u16]) {
    let Shape { ports, slots } = load.shape;
    let answer = frame_builder::turn(side, ports, slots, &load.list, frame, second);
    assert_eq!(black_box(answer), Ok(()), "a built frame turns");
}

/// Builds a load, and turns its frame there and back.
fn build_and_turn(load: &Load) {
    let Shape { ports, slots } = load.shape;
    let mut frame = vec![0; load.shape.frame_length()];
    let built = frame_builder::build(ports, slots, &load.list, load.limits, &mut frame);
    assert!(black_box(built).is_ok(), "the load fits");
    let [mut by_outputs, mut back] = [frame.clone(), frame.clone()];
    to_outputs(load, &frame, &mut by_outputs);
    to_inputs(load, &by_outputs, &mut back);
    assert!(back == frame, "turned back it is the same");
}

fn main() -> ExitCode {
    let words: Vec<String> = std::env::args().skip(1).collect();
    let Some(loads) = read_loads(&words) else {
        eprintln!("{USAGE}");
        return ExitCode::from(2);
    };
    loads.iter().for_each(build_and_turn);
    println!("{LOADS}");
    ExitCode::SUCCESS
}

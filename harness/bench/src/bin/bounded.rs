//! Builds full loads of PORTS × 2^K, with one flow for each pair and CELLS at every port, and asks for the depth of a flow, of an input and
//! of an output of each, for a count of the instructions of each call.

#![forbid(unsafe_code)]

use std::hint::black_box;
use std::process::ExitCode;

use bench::{loads_of, Flows, Load, LOADS};
use loads::Shape;

const USAGE: &str = "bounded PORTS K CELLS, with PORTS from 1 to 16, K to 10 and CELLS to 2^K";

/// The loads that the words on the command line ask for.
fn read_loads(words: &[String]) -> Option<Vec<Load>> {
    let numbers: Option<Vec<usize>> = words.iter().map(|word| word.parse().ok()).collect();
    let [ports, k, cells] = numbers?[..] else {
        return None;
    };
    let asked = (1..=16).contains(&ports) && k <= 10 && cells <= 1_usize << k;
    let slots = 1 << k;
    asked.then(|| loads_of(Shape { ports, slots }, cells, Flows::EachPair))
}

/// Builds a load and asks for the depths of the last flow, input and output.
fn build_and_bound(load: &Load) {
    let Shape { ports, slots } = load.shape;
    let mut frame = vec![0; load.shape.frame_length()];
    let built = frame_builder::build(ports, slots, &load.list, load.limits, &mut frame);
    assert!(black_box(built).is_ok(), "the load fits");
    for who in load.last_of_each() {
        let depth = frame_builder::depth(ports, slots, &load.list, who);
        assert!(black_box(depth).is_ok(), "the load fits");
    }
}

fn main() -> ExitCode {
    let words: Vec<String> = std::env::args().skip(1).collect();
    let Some(loads) = read_loads(&words) else {
        eprintln!("{USAGE}");
        return ExitCode::from(2);
    };
    loads.iter().for_each(build_and_bound);
    println!("{LOADS}");
    ExitCode::SUCCESS
}

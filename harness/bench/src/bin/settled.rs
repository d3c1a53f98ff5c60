//! Builds the benchmark's loads FIRST to LAST of PORTS × 2^K, every port loaded with CELLS, with one flow for each pair, with as many as
//! there may be, or with one for each pair over four links, of every output or of the last alone, and prints the odd counts that each
//! settled, a line each, for a count of instructions.

#![forbid(unsafe_code)]

use std::process::ExitCode;

use bench::{loads_of, Flows, Load, LOADS};
use loads::Shape;

const USAGE: &str =
    "settled PORTS K CELLS each|most|links|last FIRST LAST, with PORTS from 1 to 16, \
    K to 10, CELLS to 2^K, and FIRST and LAST from 1 to 16";

/// The loads that the words on the command line ask for.
fn read_loads(words: &[String]) -> Option<Vec<Load>> {
    let [ports, k, cells, flows, first, last] = words else {
        return None;
    };
    let flows = match flows.as_str() {
        "each" => Flows::EachPair,
        "most" => Flows::Most,
        "links" => Flows::FourLinks,
        "last" => Flows::LastOutput,
        _ => return None,
    };
    let numbers = [ports, k, cells, first, last].map(|word| word.parse().ok());
    let [Some(ports), Some(k), Some(cells), Some(first), Some(last)] = numbers else {
        return None;
    };
    let asked = (1..=16).contains(&ports) && k <= 10 && cells <= 1_usize << k;
    if !asked || first == 0 || last > LOADS {
        return None;
    }
    let shape = Shape {
        ports,
        slots: 1 << k,
    };
    let loads = loads_of(shape, cells, flows);
    loads.get(first - 1..last).map(<[Load]>::to_vec)
}

fn main() -> ExitCode {
    let words: Vec<String> = std::env::args().skip(1).collect();
    let Some(loads) = read_loads(&words) else {
        eprintln!("{USAGE}");
        return ExitCode::from(2);
    };
    for load in loads {
        let Shape { ports, slots } = load.shape;
        let mut frame = vec![0; load.shape.frame_length()];
        let answer = frame_builder::build(ports, slots, &load.list, load.limits, &mut frame);
        println!("{}", answer.expect("the load fits"));
    }
    ExitCode::SUCCESS
}

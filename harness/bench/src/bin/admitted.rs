//! Admits full loads of PORTS ports with FLOWS flows and adds up the same loads by the plain loop, for a count of the instructions of
//! each.

#![forbid(unsafe_code)]

use std::hint::black_box;
use std::process::ExitCode;

use bench::flows_of;
use frame_builder::slots_each;
use loads::{full_load, full_load_of_flows, Call, Random, Shape, LINKS, MOST_FLOWS};
use plain::Loads;

const SLOTS: usize = 1_024;

/// Enough loads that one of them does not decide the figure.
const LOADS: usize = 100;

/// One pass over the list, a function of its own so that its instructions are counted by themselves.
#[inline(never)]
fn plain_loads(list: &[u16]) -> Loads {
    plain::loads_of(list)
}

/// The ports and the flows that the words on the command line ask for; one flow for each pair, or more.
fn read_size(words: &[String]) -> Option<(usize, usize)> {
    let numbers: Option<Vec<usize>> = words.iter().map(|word| word.parse().ok()).collect();
    let [ports, flows] = numbers?[..] else {
        return None;
    };
    let asked = (1..=16).contains(&ports) && (ports * ports..=MOST_FLOWS).contains(&flows);
    asked.then_some((ports, flows))
}

/// Admits the load and adds it up.
fn admit_and_add(call: &Call) {
    let ports = call.ports as usize;
    let flows = flows_of(&call.list);
    let answer = frame_builder::admit(ports, SLOTS, &flows, slots_each(SLOTS));
    assert!(answer.is_ok(), "a full load fits");
    let loads = black_box(plain_loads(&call.list));
    let full = |loads: &[usize]| loads[..ports].iter().all(|&load| load == SLOTS);
    assert!(
        full(&loads.inputs) && full(&loads.outputs),
        "every port is full"
    );
    let on_link_1: usize = loads.links.iter().step_by(LINKS).sum();
    assert_eq!(on_link_1, ports * SLOTS, "every flow is on link 1");
}

fn main() -> ExitCode {
    let words: Vec<String> = std::env::args().skip(1).collect();
    let Some((ports, flows)) = read_size(&words) else {
        eprintln!("admitted PORTS FLOWS, with PORTS from 1 to 16 and FLOWS from PORTS x PORTS to {MOST_FLOWS}");
        return ExitCode::from(2);
    };
    let shape = Shape {
        ports,
        slots: SLOTS,
    };
    let mut random = Random::new(2_026);
    for _ in 0..LOADS {
        let call = if flows == ports * ports {
            full_load(shape, SLOTS, &mut random)
        } else {
            full_load_of_flows(shape, SLOTS, flows, &mut random)
        };
        admit_and_add(&call);
    }
    println!("{LOADS}");
    ExitCode::SUCCESS
}

//! The most odd counts that lists have, reached through C and through Rust.

use calls::{Calls, InC, Library, Reference};
use loads::{Flow, Shape, LINKS, MOST_FLOWS};
use reference::work::{bound, bound_by_size};

/// The odd counts of a flow with so many cells in a block of 2^k slots and in all blocks within it: the halves of a count differ
/// by at most one cell.
fn odd_counts(k: u32, cells: usize) -> u64 {
    if k == 0 {
        return 0;
    }
    let halves = [cells / 2, cells.div_ceil(2)];
    let of_halves = halves.map(|half| odd_counts(k - 1, half));
    (cells % 2) as u64 + of_halves.iter().sum::<u64>()
}

/// Counts of an input's flows, and the odd counts that they have together.
#[derive(Clone, Default)]
struct Row {
    counts: Vec<usize>,
    odd: u64,
}

/// The rows of so many flows with the most odd counts that have 0 cells or fewer, 1 or fewer, and so on up to 2^k.
fn best_rows(flows: usize, k: u32) -> Vec<Row> {
    let of_flow: Vec<u64> = (0..=1 << k).map(|cells| odd_counts(k, cells)).collect();
    let mut best = vec![Row::default(); of_flow.len()];
    for _ in 0..flows.min(1 << k) {
        best = (0..best.len())
            .map(|cells| longer_row(&best[..=cells], &of_flow))
            .collect();
    }
    best
}

/// The best row of one flow more, made of the best rows of up to as many cells.
fn longer_row(shorter: &[Row], of_flow: &[u64]) -> Row {
    let cells = shorter.len() - 1;
    let odd = |count: usize| shorter[cells - count].odd + of_flow[count];
    let count = (0..=cells).max_by_key(|&count| odd(count));
    let count = count.expect("no cells are a count");
    let mut row = shorter[cells - count].clone();
    row.counts.push(count);
    row.odd = odd(count);
    row
}

/// A row of so many flows with the most odd counts of all that fit 2^k slots.
fn best_row(flows: usize, k: u32) -> Row {
    let rows = best_rows(flows, k);
    let mut row = rows.last().expect("no cells are a row").clone();
    row.counts.resize(flows, 0);
    row
}

/// The list in which every input has this row, each a port further along, so that every output has the same counts too, over all its
/// links.
fn turned(ports: usize, row: &[usize]) -> Vec<Flow> {
    let flows = (0..ports).flat_map(|input| {
        row.iter().enumerate().map(move |(place, &count)| Flow {
            input,
            output: (input + place) % ports,
            cells: count as u16,
            link: place % LINKS,
        })
    });
    flows.collect()
}

/// Fails unless every way to build the list says that so many odd counts were settled.
fn expect_settled(ports: usize, k: u32, flows: &[Flow], settled: u64) {
    let slots = 1 << k;
    let call = Shape { ports, slots }.call(flows);
    let (in_c, library) = (InC::default(), Library::default());
    for calls in [&Reference as &dyn Calls, &library, &in_c] {
        let mut frame = vec![0xa5a5; call.frame_length];
        let (list, limits) = (&call.list, &call.limits);
        let answer = calls.build(call.ports, call.slots, list, limits, &mut frame);
        assert_eq!(answer, Ok(settled), "{ports} ports, k = {k}");
    }
}

/// Of lists with so many flows at every input, the one with the most odd counts.
fn reach_the_most(ports: usize, k: u32, at_each: usize) {
    let row = best_row(at_each, k);
    let (wide, flows) = (ports as u64, (ports * at_each) as u64);
    let (most, bound) = (wide * row.odd, bound(wide, k));
    let by_size = bound_by_size(wide, flows, k);
    let [part, nearer] = [bound, by_size].map(|all| most as f64 / all.max(1) as f64);
    println!(
        "{ports:>5} {flows:>6} {k:>3} {most:>13} {bound:>18} {part:>7.3} {by_size:>8} {nearer:>7.3}"
    );
    assert!(
        most <= by_size && by_size <= bound,
        "{ports} ports, k = {k}"
    );
    assert_eq!(
        most == bound,
        1 << k <= at_each,
        "{ports} ports, {flows} flows, k = {k}"
    );
    expect_settled(ports, k, &turned(ports, &row.counts), most);
}

/// With one flow for each pair, and with as many flows as a list may have.
#[test]
fn the_most_of_any_list_is_reached() {
    println!("ports  flows   k  most settled  ports x slots x k    part  by size    part");
    for ports in [1, 2, 3, 4, 5, 8, 12, 16] {
        for k in 0..=10 {
            reach_the_most(ports, k, ports);
            reach_the_most(ports, k, MOST_FLOWS / ports);
        }
    }
}

#[test]
fn every_count_1_with_as_many_slots_as_ports() {
    for k in 0..=4 {
        let ports = 1 << k;
        let ones = turned(ports, &vec![1; ports]);
        expect_settled(ports, k, &ones, bound(ports as u64, k));
    }
}

/// As many slots as an input may have flows where all of them share the list.
#[test]
fn every_count_1_with_as_many_slots_as_flows_at_a_port() {
    for ports in [1, 2, 4, 8, 16] {
        let slots = MOST_FLOWS / ports;
        let k = slots.trailing_zeros();
        let ones = turned(ports, &vec![1; slots]);
        expect_settled(ports, k, &ones, bound(ports as u64, k));
    }
}

/// A flow's cells are odd in as many blocks of one size as they are from the nearest multiple of twice the number of those blocks.
#[test]
fn the_odd_counts_of_a_flow_by_size_of_block() {
    for k in 0..=10 {
        for cells in 0..=1_usize << k {
            let from_multiple = |number: usize| {
                let above = cells % number;
                above.min(number - above) as u64
            };
            let numbers = (1..=k).map(|t| 1 << t);
            let sum = numbers.map(from_multiple).sum::<u64>();
            assert_eq!(odd_counts(k, cells), sum, "{cells} cells, k = {k}");
        }
    }
}

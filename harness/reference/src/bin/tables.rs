//! Prints the tables of docs/BUFFERS.md, in their order.

use reference::order::{at_once, to_order};
use reference::page::{decimal, grouped, row, table};
use reference::queue::ahead_behind_a_switch;
use reference::stray::{earliest, stray};
use reference::wire::deviation;

/// The m of the first table.
const CELLS: [u64; 45] = [
    1, 2, 3, 4, 5, 8, 10, 16, 20, 32, 48, 50, 63, 64, 65, 96, 100, 127, 128, 129, 192, 200, 250,
    255, 256, 257, 300, 320, 341, 384, 400, 500, 511, 512, 513, 640, 683, 700, 768, 800, 900, 960,
    1_000, 1_023, 1_024,
];

fn main() {
    let tables = [
        round_numbers(),
        three_in_eight(),
        by_size(),
        fewer(),
        table_9(),
    ];
    let tables = tables.map(|lines| lines.join("\n"));
    println!("{}", tables.join("\n\n"));
}

/// What to order from an even source, by the stray.
fn even(k: u32, m: u64) -> u64 {
    to_order(k, m, at_once(k, 1))
}

/// The same behind another switch.
fn behind(k: u32, m: u64) -> u64 {
    to_order(k, m, ahead_behind_a_switch(k, m))
}

/// What to order from an even source by the bound that does for every load.
fn even_for_any(k: u32, m: u64) -> u64 {
    (at_once(k, 1) + 2 * deviation(k) as u64 + m) >> k
}

fn round_numbers() -> Vec<String> {
    let head = "| m | 2s/1,024 | even source | two cells at once | behind another switch |";
    let rows = CELLS.into_iter().map(|m| {
        let cells = [even(10, m), to_order(10, m, at_once(10, 2)), behind(10, m)];
        let [one, two, other] = cells.map(grouped);
        row(&[
            grouped(m),
            decimal(2 * stray(10, m), 10, 3),
            one,
            two,
            other,
        ])
    });
    table(head.into(), rows)
}

/// The slots of 3 cells that come as early as they can in 8.
fn three_in_eight() -> Vec<String> {
    let line = |says: &str, number: &dyn Fn(u64) -> u64| {
        let numbers = (1..=8).map(|slots| number(slots).to_string());
        row(&[says.into()].into_iter().chain(numbers).collect::<Vec<_>>())
    };
    let so_far = |slots| earliest(3, 3, slots);
    let rows = [
        line("cells", &|slots| so_far(slots) - so_far(slots - 1)),
        line("8 × the cells so far − 3 × the slots so far", &|slots| {
            8 * so_far(slots) - 3 * slots
        }),
    ];
    table(line("slot", &|slots| slots), rows.into_iter())
}

/// The most that a power of two needs, the mean of all m, and the most that any needs.
fn most_and_mean(k: u32, cells: fn(u32, u64) -> u64) -> String {
    let powers = (0..=k).map(|power| cells(k, 1 << power)).max().unwrap_or(0);
    let every = (1..=1 << k).map(|m| cells(k, m));
    let most = every.clone().max().unwrap_or(0);
    format!("{powers}, {}, {most}", decimal(every.sum(), k, 2))
}

fn by_size() -> Vec<String> {
    let head = "| k | slots | 2p(k) | first m with 2s = 2p(k) × slots \
                | even source: a power of two, on average, at most \
                | behind another switch: a power of two, on average, at most |";
    let rows = (0..=10).map(|k| {
        let furthest = deviation(k) as u64;
        let first = (1..=1 << k).find(|&m| stray(k, m) == furthest);
        row(&[
            k.to_string(),
            grouped(1 << k),
            in_cells(2 * furthest, k),
            grouped(first.expect("some load strays as far")),
            most_and_mean(k, even),
            most_and_mean(k, behind),
        ])
    });
    table(head.into(), rows)
}

/// So many parts of 1/2^k of a cell, and the same in cells, to three digits after the point.
fn in_cells(parts: u64, k: u32) -> String {
    let cells = parts as f64 / f64::from(1 << k);
    let rounded: f64 = decimal(parts, k, 3).parse().expect("a number");
    let sign = if rounded == cells { '=' } else { '≈' };
    format!("{}/{} {sign} {rounded}", grouped(parts), grouped(1 << k))
}

/// How many cells fewer the bound of the load has a house order than the bound that does for every load.
fn fewer() -> Vec<String> {
    let head =
        "| k | slots | by 2p(k), on average | by 2s | fewer at one m, at most | m with as many |";
    let rows = (0..=10).map(|k| {
        let loads = 1..=1_u64 << k;
        let mean = |cells: fn(u32, u64) -> u64| {
            let every = loads.clone().map(|m| cells(k, m));
            decimal(every.sum(), k, 3)
        };
        let fewer = |m: u64| even_for_any(k, m) - even(k, m);
        let most = loads.clone().map(fewer).max().unwrap_or(0);
        let same = loads.clone().filter(|&m| fewer(m) == 0).count();
        row(&[
            k.to_string(),
            grouped(1 << k),
            mean(even_for_any),
            mean(even),
            grouped(most),
            same.to_string(),
        ])
    });
    table(head.into(), rows)
}

fn table_9() -> Vec<String> {
    let columns = (0..16).map(|b: u64| b.to_string());
    let head: Vec<_> = ["a \\\\ b".into()].into_iter().chain(columns).collect();
    let rows = (0..=512).step_by(16).map(|a| {
        let numbers = (a..a + 16).map(|m| decimal(2 * stray(10, m), 10, 3));
        row(&[a.to_string()]
            .into_iter()
            .chain(numbers)
            .collect::<Vec<_>>())
    });
    table(row(&head), rows)
}

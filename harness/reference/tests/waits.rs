//! The tables and examples of docs/WAITS.md, held to their formulas.

mod page;

use loads::SEAMS;
use reference::order::at_once;
use reference::page::{decimal, grouped, row, table};
use reference::queue::ahead_behind_a_switch;
use reference::stray::stray;
use reference::wait::{by_blocks, paced, Allowed};

const TEXT: &str = include_str!("../../../docs/WAITS.md");

/// The cells of a frame that have a column; every slot has the last one.
const CELLS: [u64; 9] = [1, 3, 10, 30, 64, 100, 300, 341, 1_000];

/// The longest wait, by k and m.
type Longest = fn(u32, u64) -> u128;

/// What the first column of waits of each table says, and the waits of the table.
const WAITS: [(&str, Longest); 3] = [
    ("longest wait", even),
    ("exactly", at_head),
    ("by (2k + 1)/3", |k, m| Allowed::demanded(k, m).longest(1)),
];

/// Of every cell of an even source.
fn even(k: u32, m: u64) -> u128 {
    paced(k, m, at_once(k, 1))
}

/// By blocks, which is exact for the first in its queue.
fn at_head(k: u32, m: u64) -> u128 {
    by_blocks(k, m, 1)
}

/// By the bound of the load and by demand 3.
fn by_rate(k: u32, m: u64, w: u64) -> [u128; 2] {
    [Allowed::by_load(k, m), Allowed::demanded(k, m)].map(|allowed| allowed.longest(w))
}

/// Slots of 0.52 microseconds as milliseconds, to three digits after the point.
fn in_milliseconds(slots: u128) -> String {
    let microseconds = (52 * slots + 50) / 100;
    let (whole, rest) = (microseconds / 1_000, microseconds % 1_000);
    format!("{whole}.{rest:03} milliseconds")
}

/// Words of the page, wherever its lines end: those of the example, 1,024 slots and 100 cells.
fn examples() -> Vec<String> {
    let blocks = |w| by_blocks(10, 100, w);
    let rate = |w| by_rate(10, 100, w);
    let strays = 2 * stray(10, 100);
    let ahead = ahead_behind_a_switch(10, 100);
    assert!(rate(3)[0] > blocks(3) && rate(4)[0] < blocks(4));
    let exact = |&m: &u64| by_rate(10, m, 1)[0] == at_head(10, m);
    assert!([1, 3, 64, 96].iter().all(exact));
    vec![
        format!(
            "has a frame of 1,024 slots and a flow with 100 cells reserved in each frame. Its source sends evenly. Then every cell has left after **{} more slots** at most",
            even(10, 100)
        ),
        "line of 1,024 slots, column m = 100".into(),
        format!(
            "The switch of SRC Report 150 carries 1,923,000 cells a second at each port, so that a slot takes 0.52 microseconds: {} slots are {:.2} microseconds, {}",
            even(10, 100),
            0.52 * even(10, 100) as f64,
            in_milliseconds(even(10, 100))
        ),
        format!("a whole frame takes {}", in_milliseconds(1_024)),
        format!(
            "has left after **{} more slots**, {}",
            blocks(1),
            in_milliseconds(blocks(1))
        ),
        format!("further down, that would be {}.", rate(1)[1]),
        format!(
            "of a flow with 64 cells every cell has left after {} slots, and of one with 65 after {}.",
            even(10, 64),
            even(10, 65)
        ),
        format!(
            "(2 × {} − 1,024)/100 = {:.2}, which makes {} slots.",
            grouped(strays),
            (2 * strays - 1_024) as f64 / 100.0,
            paced(10, 100, ahead)
        ),
        "the difference of two powers of two, such as 1, 3, 64 or 96, and where it is 2^k".into(),
        "a block is 16 slots, since 64 is the largest power of two that is not above 100, and 1,024/64 is 16".into(),
        format!(
            "the third cell has ({} + 2 × 1,024)/100 = {:.2}, which makes {} slots by the rate ({} by (2k + 1)/3) and {} by blocks; from the fourth on, with {} and {}, the rate is better",
            grouped(strays),
            (strays + 2 * 1_024) as f64 / 100.0,
            rate(3)[0],
            rate(3)[1],
            blocks(3),
            rate(4)[0],
            blocks(4)
        ),
    ]
}

/// The same of picture and sound between the same two ports, 9 cells and 1 in 16 slots.
fn sound_and_picture() -> Vec<String> {
    let even = |m| even(4, m);
    let as_one = |cells: u64| paced(4, 10, at_once(4, cells) + at_once(4, 1));
    vec![
        format!(
            "the picture has 9 cells in a frame of 16 slots and the sound 1, both from input 1 to output 2, as two flows. From even sources a cell of the picture has left after {} more slots at most, and one of the sound after {}",
            even(9),
            even(1)
        ),
        format!("As one flow of 10 cells they would be two even sources, a = 2 × 15, and every cell would have left after {}.", as_one(1)),
        format!("where the picture may send 40 cells at once, a = 40 × 16 − 1 + 15 and it is {} slots", as_one(40)),
        format!("the sound has its {} slots", even(1)),
        format!("with 2 cells a frame for the sound it is {}.", even(2)),
    ]
}

/// The smallest case of a source that may be a whole cell ahead.
fn slowest() -> Vec<String> {
    assert_eq!(paced(1, 1, 2), 3);
    vec!["k = 1, m = 1 and a = 2: the last of two cells waits three slots".into()]
}

/// So many slots, and the same in frames of 2^k slots.
fn in_frames(slots: u128, k: u32) -> String {
    format!(
        "{} ({})",
        grouped(slots as u64),
        decimal(slots as u64, k, 3)
    )
}

/// The table of waits, by what its first column says.
fn waits((says, wait): (&str, Longest)) -> Vec<String> {
    let columns = CELLS.map(|m| format!("m = {}", grouped(m)));
    let columns = columns.join(" | ");
    let head = format!("| k | slots | {says}, {columns} | m = slots |");
    let rows = (0..=10).map(|k| {
        let slots = 1 << k;
        let cell = |m: u64| match m <= slots {
            true => in_frames(wait(k, m), k),
            false => "–".into(),
        };
        let cells = CELLS.into_iter().chain([slots]).map(cell);
        let size = [k.to_string(), grouped(slots)].into_iter();
        row(&size.chain(cells).collect::<Vec<_>>())
    });
    table(head, rows)
}

/// What the page says of both formulas for the first in a queue.
#[test]
fn an_even_source_and_the_first_in_a_queue() {
    for (k, m) in (0..=10).flat_map(|k| (1..=1 << k).map(move |m| (k, m))) {
        let divides = (2 * stray(k, m)).is_multiple_of(m);
        let first = even(k, m) + u128::from(divides);
        assert_eq!(by_rate(k, m, 1)[0], first, "k = {k}, m = {m}");
    }
}

/// And where the rate is exact for it.
#[test]
fn the_rate_at_the_head_of_the_queue() {
    for (k, m) in (0..=10).flat_map(|k| (1..=1_u64 << k).map(move |m| (k, m))) {
        let lowest = m & m.wrapping_neg();
        let of_two_powers = (m + lowest).is_power_of_two();
        let exact = at_head(k, m) == by_rate(k, m, 1)[0];
        assert_eq!(exact, of_two_powers || m == 1 << k, "k = {k}, m = {m}");
    }
}

/// A table that has a column for each k: what each line says, and its numbers by k.
fn by_k<const LINES: usize>(says: [&str; LINES], numbers: &[[u128; LINES]]) -> Vec<String> {
    let line = |line: usize| {
        let numbers = numbers.iter().map(|lines| grouped(lines[line] as u64));
        row(&[says[line].into()]
            .into_iter()
            .chain(numbers)
            .collect::<Vec<_>>())
    };
    table(line(0), (1..LINES).map(line))
}

/// The waits of the seams: in the run that falls furthest behind there are cells for all places before the w-th.
fn reached() -> Vec<String> {
    let waits = SEAMS.map(|seam| {
        let (slots, m) = (u128::from(seam.slots), u128::from(seam.cells));
        let length = 2 * (slots - seam.turn as u128);
        let w = (length * m - 2 * seam.deviation as u128) / slots + 1;
        assert_eq!(by_rate(seam.k, m as u64, w as u64), [length + 1; 2]);
        [seam.k.into(), m, w, length + 1]
    });
    by_k(["k", "m", "w", "slots"], &waits)
}

/// The first in the queue where its wait is the shortest beside what the rate allows, the least such m, for those k for which it is
/// shorter at all.
fn shortest() -> Vec<String> {
    let waits = [3, 4, 5, 6, 7, 8, 9, 10].map(|k| {
        let times = |m: u64| by_rate(k, m, 1)[0] as f64 / at_head(k, m) as f64;
        let by_times = |one: &u64, other: &u64| times(*one).total_cmp(&times(*other));
        let m = (1..=1 << k).rev().max_by(by_times).expect("a cell");
        [k.into(), m.into(), at_head(k, m), by_rate(k, m, 1)[0]]
    });
    by_k(["k", "m", "exactly", "by 2s"], &waits)
}

/// The page has these tables and no other.
#[test]
fn tables() {
    let tables = WAITS.into_iter().map(waits);
    let right: Vec<_> = tables.chain([reached(), shortest()]).collect();
    let given = page::tables(TEXT);
    assert_eq!(given.len(), right.len());
    for (given, right) in given.iter().zip(right) {
        assert_eq!(*given, right, "the table should be\n{}\n", right.join("\n"));
    }
}

#[test]
fn sentences() {
    let sentences = [examples(), sound_and_picture(), slowest()].concat();
    // k goes up to 10, and what is over 2^k is named.
    page::holds(TEXT, &sentences, &["10", "1/2"]);
}

/// Numbers that were worked out by hand, so that the formatting is held to something too.
#[test]
fn cells_of_the_tables_by_hand() {
    assert_eq!(in_frames(7_055, 10), "7,055 (6.890)");
    assert_eq!(in_frames(1, 0), "1 (1.000)");
    assert_eq!(in_frames(7, 2), "7 (1.750)");
    assert_eq!(in_frames(1, 4), "1 (0.062)", "a half to the even digit");
    assert_eq!(in_frames(3, 4), "3 (0.188)", "a half to the even digit");
}

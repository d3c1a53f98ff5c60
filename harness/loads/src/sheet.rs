//! Reservation sheets, well-formed and damaged.

use crate::list::{FLOW_NUMBERS, MOST_FLOWS};
use crate::load::{load, load_of_shape, random_shape, Call, LoadKind};
use crate::random::Random;

/// The most bytes a sheet may have.
const LONGEST: usize = 32_768;

/// Line 3 of a sheet in a list that begins with line 1.
const FIRST_PAIR: usize = 2;

kinds! {
    /// How a sheet departs from a well-formed one of a load that fits.
    SheetKind {
        WellFormed = "well-formed",
        NoFlows = "no-flows",
        MostFlows = "most-flows",
        TooManyFlows = "too-many-flows",
        Overloaded = "overloaded",
        PortsOutside = "ports-outside",
        SlotsOutside = "slots-outside",
        PortOutside = "port-outside",
        PairRepeated = "pair-repeated",
        ByteChanged = "byte-changed",
        ByteDropped = "byte-dropped",
        ByteDoubled = "byte-doubled",
        StrayByte = "stray-byte",
        LineCut = "line-cut",
        LineDropped = "line-dropped",
        LinesSwapped = "lines-swapped",
        LineRepeated = "line-repeated",
        LeadingZero = "leading-zero",
        NumberTooLarge = "number-too-large",
        Empty = "empty",
        NoFinalNewline = "no-final-newline",
        CrLf = "cr-lf",
        CutShort = "cut-short",
        Longest = "longest",
        TooLong = "too-long",
        RandomBytes = "random-bytes",
    }
}

/// A sheet of the kind.
pub fn sheet(kind: SheetKind, random: &mut Random) -> Vec<u8> {
    let mut lines = lines_of(&reservation(kind, random));
    damage_lines(kind, &mut lines, random);
    let mut sheet = lines.concat();
    damage_bytes(kind, &mut sheet, random);
    sheet
}

/// The load a sheet of the kind reserves.
fn reservation(kind: SheetKind, random: &mut Random) -> Call {
    let shape = random_shape(random);
    match kind {
        SheetKind::NoFlows => load_of_shape(LoadKind::NoFlows, shape, random),
        SheetKind::MostFlows => load_of_shape(LoadKind::MostFlows, shape, random),
        SheetKind::TooManyFlows => {
            let loads = [LoadKind::MostFlows, LoadKind::MostFlows, LoadKind::Largest];
            load_of_shape(random.pick(&loads), shape, random)
        }
        SheetKind::Overloaded => load(random.pick(&LoadKind::OVERLOADED), random),
        _ => load(random.pick(&LoadKind::FITTING), random),
    }
}

/// The lines of a well-formed sheet, one for each flow of the list, whose link a sheet does not say.
fn lines_of(call: &Call) -> Vec<Vec<u8>> {
    let first = [
        number_line("ports", call.ports),
        number_line("slots", call.slots),
    ];
    let flows = call.list.chunks(FLOW_NUMBERS).map(|numbers| {
        let [input, output, cells] = [0, 1, 2].map(|place| u64::from(numbers[place]));
        pair_line(input, output, cells)
    });
    first.into_iter().chain(flows).collect()
}

fn number_line(word: &str, number: u64) -> Vec<u8> {
    format!("({word} {number})\n").into_bytes()
}

fn pair_line(input: u64, output: u64, cells: u64) -> Vec<u8> {
    format!("(pair (in {input}) (out {output}) (cells {cells}))\n").into_bytes()
}

/// Damages that fall on whole lines.
fn damage_lines(kind: SheetKind, lines: &mut Vec<Vec<u8>>, random: &mut Random) {
    let line = random.place(lines.len());
    let other = random.place(lines.len());
    match kind {
        SheetKind::PortsOutside => {
            lines[0] = number_line("ports", random.pick(&[0, 17, 18, 255, 256, 272, 65_535]));
        }
        SheetKind::SlotsOutside => {
            let wrong = [0, 3, 6, 12, 1_023, 1_025, 2_048, 32_768, 65_535];
            lines[1] = number_line("slots", random.pick(&wrong));
        }
        SheetKind::PortOutside => insert_pair_outside(lines, random),
        SheetKind::TooManyFlows => add_flows(lines, random),
        SheetKind::PairRepeated => repeat_pair(lines, random),
        SheetKind::LineCut => {
            let length = random.place(lines[line].len());
            lines[line].truncate(length);
            if random.one_in(2) {
                lines[line].push(b'\n');
            }
        }
        SheetKind::LineDropped => drop(lines.remove(line)),
        SheetKind::LinesSwapped => lines.swap(line, other),
        SheetKind::LineRepeated => {
            let copy = lines[line].clone();
            lines.insert(other + 1, copy);
        }
        _ => {}
    }
}

/// Adds a pair line with a port that no sixteen-port sheet, or not this one, has.
fn insert_pair_outside(lines: &mut Vec<Vec<u8>>, random: &mut Random) {
    let outside = random.pick(&[0, 17, 256, 257, 65_535]);
    let (input, output) = match random.below(3) {
        0 => (outside, 1),
        1 => (1, outside),
        _ => (random.between(1, 16), random.between(1, 16)),
    };
    let place = random.between(FIRST_PAIR as u64, lines.len() as u64) as usize;
    lines.insert(place, pair_line(input, output, random.between(0, 5)));
}

/// Adds flow lines up to the one that is too many, or further; that one may have a port outside or break the form besides.
fn add_flows(lines: &mut Vec<Vec<u8>>, random: &mut Random) {
    let before = FIRST_PAIR + MOST_FLOWS;
    while lines.len() < before {
        lines.push(pair_line(1, 1, 0));
    }
    let last = match random.below(4) {
        0 => pair_line(random.pick(&[0, 17]), 1, 1),
        1 => b"(pair (in 1) (out 1) (cells 01))\n".to_vec(),
        _ => pair_line(1, 1, random.between(0, 1)),
    };
    lines.insert(before, last);
    for _ in 0..random.pick(&[0, 0, 1, 100]) {
        lines.push(pair_line(1, 1, 0));
    }
}

/// Names pair (1, 1) twice, perhaps with different cells.
fn repeat_pair(lines: &mut Vec<Vec<u8>>, random: &mut Random) {
    for _ in 0..2 {
        let place = random.between(FIRST_PAIR as u64, lines.len() as u64) as usize;
        lines.insert(place, pair_line(1, 1, random.between(0, 1)));
    }
}

/// Damages that fall on the bytes of the sheet.
fn damage_bytes(kind: SheetKind, sheet: &mut Vec<u8>, random: &mut Random) {
    let place = random.place(sheet.len().max(1));
    match kind {
        SheetKind::ByteChanged => sheet[place] = changed_byte(random),
        SheetKind::ByteDropped => drop(sheet.remove(place)),
        SheetKind::ByteDoubled => sheet.insert(place, sheet[place]),
        SheetKind::StrayByte => sheet.insert(place, changed_byte(random)),
        SheetKind::LeadingZero => rewrite_number(sheet, random, |old, _| [b"0", old].concat()),
        SheetKind::NumberTooLarge => rewrite_number(sheet, random, |_, random| {
            let large = ["65536", "65537", "99999", "131076", "4294967300"];
            let larger = ["18446744073709551620", "00000", "655350", "-1", "+4", "1e2"];
            random.pick(&[large.as_slice(), &larger].concat()).into()
        }),
        SheetKind::Empty => sheet.truncate(random.place(2)),
        SheetKind::NoFinalNewline => drop(sheet.pop()),
        SheetKind::CrLf => put_returns(sheet, random),
        SheetKind::CutShort => sheet.truncate(place),
        SheetKind::Longest => pad(sheet, LONGEST, random),
        SheetKind::TooLong => {
            let over = random.pick(&[1, 1, 2, 1_000, LONGEST]);
            pad(sheet, LONGEST + over, random);
        }
        SheetKind::RandomBytes => {
            let length = random.place(200);
            *sheet = random.bytes(length);
        }
        _ => {}
    }
}

/// Any byte, with those that matter to the form among the likelier ones.
fn changed_byte(random: &mut Random) -> u8 {
    let telling = *b"()09 \n\r\t\0\x80\xff";
    if random.one_in(2) {
        random.pick(&telling)
    } else {
        random.draw() as u8
    }
}

/// Rewrites one number of the sheet.
fn rewrite_number(
    sheet: &mut Vec<u8>,
    random: &mut Random,
    new: impl Fn(&[u8], &mut Random) -> Vec<u8>,
) {
    let is_digit = |place: usize| sheet.get(place).is_some_and(u8::is_ascii_digit);
    let starts: Vec<usize> = (1..sheet.len())
        .filter(|&place| is_digit(place) && !is_digit(place - 1))
        .collect();
    let start = random.pick(&starts);
    let end = (start..).find(|&place| !is_digit(place)).unwrap_or(start);
    let number = new(&sheet[start..end], random);
    sheet.splice(start..end, number);
}

/// Ends one line or every line with the bytes 13 and 10.
fn put_returns(sheet: &mut Vec<u8>, random: &mut Random) {
    let ends = sheet.iter().filter(|&&byte| byte == b'\n').count();
    let chosen = random.one_in(2).then(|| random.place(ends));
    let mut seen = 0;
    let mut written = Vec::new();
    for &byte in sheet.iter() {
        if byte == b'\n' {
            written.extend(chosen.is_none_or(|end| end == seen).then_some(b'\r'));
            seen += 1;
        }
        written.push(byte);
    }
    *sheet = written;
}

/// Repeats pair lines or writes stray bytes until the sheet has this length exactly.
fn pad(sheet: &mut Vec<u8>, length: usize, random: &mut Random) {
    let line = match random.below(3) {
        0 => pair_line(1, 1, 0),
        1 => pair_line(16, 16, 1),
        _ => vec![random.pick(b"\n 7x\0"); 1],
    };
    while sheet.len() < length {
        sheet.extend_from_slice(&line);
    }
    sheet.truncate(length);
}

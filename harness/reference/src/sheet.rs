//! The sheet program: reads a reservation sheet and prints its frame.

use crate::admission::{check_ports, check_slots};
use crate::build::build;
use crate::flow::{flows_of, slots_each, MOST_FLOWS};
use crate::refusal::{require, Refusal};

/// The most bytes a sheet may have.
pub const LONGEST_SHEET: usize = 32_768;

/// What a sheet reserves.
struct Reservation {
    ports: u64,
    slots: u64,
    list: Vec<u16>,
}

/// All the program prints for a sheet: the frame, or one refusal line.
pub fn respond(sheet: &[u8]) -> Vec<u8> {
    let printed = match frame_of(sheet) {
        Ok((ports, frame)) => print_frame(ports, &frame),
        Err(refusal) => print_refusal(refusal),
    };
    printed.into_bytes()
}

/// The link of every flow of a sheet, whose limit is the slots.
const LINK: u64 = 1;

/// The number of ports and the frame a sheet asks for.
fn frame_of(sheet: &[u8]) -> Result<(u64, Vec<u16>), Refusal> {
    let asked = read_sheet(sheet)?;
    let mut frame = vec![0; (asked.ports * asked.slots) as usize];
    let limits = slots_each(asked.slots);
    build(asked.ports, asked.slots, &asked.list, &limits, &mut frame)?;
    Ok((asked.ports, frame))
}

/// Reads the lines in turn; every refusal but overload is found here.
fn read_sheet(sheet: &[u8]) -> Result<Reservation, Refusal> {
    require(sheet.len() <= LONGEST_SHEET, Refusal::SheetLength)?;
    let mut lines = sheet.split_inclusive(|&byte| byte == b'\n');
    let [ports] = read_line(lines.next(), 1, ["(ports ", ")\n"])?;
    check_ports(ports)?;
    let [slots] = read_line(lines.next(), 2, ["(slots ", ")\n"])?;
    check_slots(slots)?;
    let mut list = Vec::new();
    for (line, bytes) in (3..).zip(lines) {
        read_pair(bytes, line, ports, &mut list)?;
    }
    Ok(Reservation { ports, slots, list })
}

/// Reads a pair line, which is one flow more of the list: 7, then 21, then 8.
fn read_pair(bytes: &[u8], line: u64, ports: u64, list: &mut Vec<u16>) -> Result<(), Refusal> {
    let form = ["(pair (in ", ") (out ", ") (cells ", "))\n"];
    let [input, output, cells] = read_line(Some(bytes), line, form)?;
    require(flows_of(list).len() < MOST_FLOWS, Refusal::TooManyFlows)?;
    let known = 1..=ports;
    let ports_known = known.contains(&input) && known.contains(&output);
    require(ports_known, Refusal::LinePort { line })?;
    list.extend([input, output, cells, LINK].map(|number| number as u16));
    Ok(())
}

/// The numbers between the fixed texts of a line; a missing line breaks the form.
fn read_line<const TEXTS: usize, const NUMBERS: usize>(
    bytes: Option<&[u8]>,
    line: u64,
    texts: [&str; TEXTS],
) -> Result<[u64; NUMBERS], Refusal> {
    bytes
        .and_then(|bytes| match_form(bytes, &texts))
        .and_then(|numbers| numbers.try_into().ok())
        .ok_or(Refusal::LineForm { line })
}

/// Matches texts with one number between each and the next, to the line's very end.
fn match_form(bytes: &[u8], texts: &[&str]) -> Option<Vec<u64>> {
    let (opening, others) = texts.split_first()?;
    let mut rest = bytes.strip_prefix(opening.as_bytes())?;
    let mut numbers = Vec::new();
    for text in others {
        let digits = rest.iter().take_while(|byte| byte.is_ascii_digit()).count();
        let (number, after) = rest.split_at(digits);
        numbers.push(read_number(number)?);
        rest = after.strip_prefix(text.as_bytes())?;
    }
    rest.is_empty().then_some(numbers)
}

/// A number from 0 to 65535 without leading zeros.
fn read_number(digits: &[u8]) -> Option<u64> {
    let written = std::str::from_utf8(digits).ok()?;
    let number: u16 = written.parse().ok()?;
    (number.to_string() == written).then_some(u64::from(number))
}

/// The frame's heading, then each slot with its flow numbers by rising input.
fn print_frame(ports: u64, frame: &[u16]) -> String {
    let slots = frame.len() as u64 / ports;
    let mut printed = format!("(frame (ports {ports}) (slots {slots}))\n");
    for (number, slot) in frame.chunks(ports as usize).enumerate() {
        printed += &format!("(slot {}", number + 1);
        for flow in slot.iter().filter(|&&entry| entry != 0) {
            printed += &format!(" {flow}");
        }
        printed += ")\n";
    }
    printed
}

/// The one line printed for a refusal.
fn print_refusal(refusal: Refusal) -> String {
    match refusal.numbers()[..] {
        [number, port, cells] => format!("(refused {number} (port {port}) (cells {cells}))\n"),
        [number, line] => format!("(refused {number} (line {line}))\n"),
        _ => format!("(refused {})\n", refusal.number()),
    }
}

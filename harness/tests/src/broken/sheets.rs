//! Sheet programs that print something else.

use std::collections::BTreeSet;

/// Prints nothing for a refused sheet.
pub fn silent_refusal(sheet: &[u8]) -> Vec<u8> {
    let response = reference::respond(sheet);
    if response.starts_with(b"(refused") {
        Vec::new()
    } else {
        response
    }
}

/// Prints each flow with its input, as a frame by pairs is printed.
pub fn old_print(sheet: &[u8]) -> Vec<u8> {
    let response = String::from_utf8(reference::respond(sheet)).expect("what is printed is text");
    let lines = response.lines().map(|line| {
        let Some(slot) = line.strip_prefix("(slot ") else {
            return format!("{line}\n");
        };
        let mut numbers = slot.trim_end_matches(')').split(' ');
        let slot = numbers.next().unwrap_or_default();
        let cells = (1..)
            .zip(numbers)
            .map(|(input, flow)| format!(" ({input} {flow})"));
        format!("(slot {slot}{})\n", cells.collect::<String>())
    });
    lines.collect::<String>().into_bytes()
}

/// Refuses a line with a pair that an earlier line has, with the number that is no longer used.
pub fn pair_only_once(sheet: &[u8]) -> Vec<u8> {
    let response = reference::respond(sheet);
    let lines = sheet.split_inclusive(|&byte| byte == b'\n');
    let mut named = BTreeSet::new();
    for (line, bytes) in (1..).zip(lines).skip(2) {
        let pair = bytes.split(|&byte| byte == b'c').next();
        if !response.starts_with(b"(refused 7") && !named.insert(pair) {
            return format!("(refused 9 (line {line}))\n").into_bytes();
        }
    }
    response
}

/// Prints the line of refusal 21.
pub fn line_of_21(sheet: &[u8]) -> Vec<u8> {
    let response = reference::respond(sheet);
    match response.as_slice() {
        b"(refused 21)\n" => b"(refused 21 (line 515))\n".to_vec(),
        _ => response,
    }
}

/// Looks at the ports of a line before it counts the flows: 8 before 21.
pub fn port_before_number(sheet: &[u8]) -> Vec<u8> {
    let response = reference::respond(sheet);
    let lines: Vec<&[u8]> = sheet.split_inclusive(|&byte| byte == b'\n').collect();
    let is_outside =
        |line: &&[u8]| line.starts_with(b"(pair (in 0)") || line.starts_with(b"(pair (in 17)");
    if response == b"(refused 21)\n" && lines.get(514).is_some_and(is_outside) {
        return b"(refused 8 (line 515))\n".to_vec();
    }
    response
}

/// Takes sheets of up to 16,384 bytes only.
pub fn half_the_bytes(sheet: &[u8]) -> Vec<u8> {
    if sheet.len() > 16_384 {
        return b"(refused 10)\n".to_vec();
    }
    reference::respond(sheet)
}

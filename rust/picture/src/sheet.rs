//! A reservation sheet: ports, slots and a list of flows.

use frame_builder::{admit, slots_each, Flow, Refusal};

use crate::refused::Refused;

/// The most bytes of a sheet.
pub const LONGEST_SHEET: usize = 32_768;

const PORTS: &str = "(ports P)";
const SLOTS: &str = "(slots N)";
const PAIR: &str = "(pair (in I) (out O) (cells M))";

/// What a sheet asks for. Whether its loads fit is the library's question.
#[derive(Debug, Clone, PartialEq, Eq)]
pub struct Sheet {
    pub ports: usize,
    pub slots: usize,
    pub list: Vec<Flow>,
}

impl Sheet {
    /// Reads `(ports P)`, `(slots N)` and a pair line for each flow. Each line is judged before the next one is read, so that the refusal
    /// is the one that the sheet program prints.
    pub fn read(text: &[u8]) -> Result<Sheet, Refused> {
        if text.len() > LONGEST_SHEET {
            return Err(Refused::TooLong);
        }
        let mut lines = text.split_inclusive(|&byte| byte == b'\n');
        let [ports] = read_line(1, lines.next(), PORTS)?.map(usize::from);
        judge(1, ports, 1, &[])?;
        let [slots] = read_line(2, lines.next(), SLOTS)?.map(usize::from);
        judge(2, ports, slots, &[])?;
        let mut list = Vec::new();
        for (place, line) in (3..).zip(lines) {
            let [input, output, cells] = read_line(place, Some(line), PAIR)?;
            list.push(Flow::new(input, output, cells));
            judge(place, ports, slots, &list)?;
        }
        Ok(Sheet { ports, slots, list })
    }
}

/// What the library says of the lines up to this one. Loads are judged when all lines are read.
fn judge(line: usize, ports: usize, slots: usize, list: &[Flow]) -> Result<(), Refused> {
    match admit(ports, slots, list, slots_each(slots)) {
        Err(Refusal::FlowPort) => Err(Refused::Port { line }),
        Ok(()) | Err(Refusal::InputLoad { .. } | Refusal::OutputLoad { .. }) => Ok(()),
        Err(refusal) => Err(Refused::Call(refusal)),
    }
}

/// The numbers of a line that has to be there, with a line feed and in this form.
fn read_line<const N: usize>(
    place: usize,
    line: Option<&[u8]>,
    form: &str,
) -> Result<[u16; N], Refused> {
    let text = line.and_then(|line| std::str::from_utf8(line.strip_suffix(b"\n")?).ok());
    let numbers = text.and_then(|text| numbers_in(text, form)?.try_into().ok());
    numbers.ok_or(Refused::Form { line: place })
}

/// The numbers of a line, one in the place of each capital letter of its form.
fn numbers_in(line: &str, form: &str) -> Option<Vec<u16>> {
    let mut pieces = form.split(char::is_uppercase);
    let mut rest = line.strip_prefix(pieces.next()?)?;
    let mut numbers = Vec::new();
    for piece in pieces {
        let end = rest.find(|next: char| !next.is_ascii_digit())?;
        numbers.push(number(&rest[..end])?.try_into().ok()?);
        rest = rest[end..].strip_prefix(piece)?;
    }
    rest.is_empty().then_some(numbers)
}

/// A number of at most 9 digits, without leading zeros.
pub fn number(text: &str) -> Option<usize> {
    let digits = text.len() <= 9 && text.bytes().all(|byte| byte.is_ascii_digit());
    let leading_zero = text.len() > 1 && text.starts_with('0');
    if !digits || leading_zero {
        return None;
    }
    text.parse().ok()
}

#[cfg(test)]
mod tests {
    use super::*;

    const TABLE7: &str = include_str!("../../../examples/table7.sheet");

    fn refused(text: &[u8]) -> String {
        let refused = Sheet::read(text).expect_err("it is no sheet");
        refused.to_string()
    }

    #[test]
    fn table_7() {
        let sheet = Sheet::read(TABLE7.as_bytes()).unwrap();
        assert_eq!((sheet.ports, sheet.slots), (4, 4));
        assert_eq!(sheet.list.len(), 5);
        assert_eq!(sheet.list[4], Flow::new(4, 4, 2));
    }

    #[test]
    fn loads_of_any_size_are_read() {
        let text = "(ports 16)\n(slots 1)\n(pair (in 1) (out 16) (cells 65535))\n";
        let sheet = Sheet::read(text.as_bytes()).unwrap();
        assert_eq!((sheet.ports, sheet.slots), (16, 1));
        assert_eq!(sheet.list, [Flow::new(1, 16, 65_535)]);
    }

    #[test]
    fn several_flows_of_one_pair() {
        let text = include_str!("../../../examples/sound-and-picture.sheet");
        let list = Sheet::read(text.as_bytes()).unwrap().list;
        assert_eq!(list[..2], [Flow::new(1, 2, 9), Flow::new(1, 2, 1)]);
    }

    #[test]
    fn other_forms_are_refused_by_line() {
        let two = "(ports 2)\n(slots 4)\n";
        for (text, line) in [
            ("", 1),
            ("(ports 2)\n", 2),
            ("(ports 2)", 1),
            ("(ports 2)\r\n", 1),
            ("(ports 02)\n", 1),
            ("(ports )\n", 1),
            ("(ports 65536)\n", 1),
            ("(ports 2)\n(slots 4) \n", 2),
            (&format!("{two}\n"), 3),
            (&format!("{two}(pair (in 1) (out 2))\n"), 3),
            (&format!("{two}(pair  (in 1)"), 3),
        ] {
            let form = format!("(refused 7 (line {line}))");
            assert_eq!(refused(text.as_bytes()), form, "{text}");
        }
        assert_eq!(refused(b"\xff\xfe\n"), "(refused 7 (line 1))");
    }

    #[test]
    fn the_first_refusal_is_that_of_the_first_line() {
        let two = "(ports 2)\n(slots 4)\n";
        let outside = "(pair (in 3) (out 1) (cells 1))\n";
        let flows = "(pair (in 1) (out 1) (cells 9))\n".repeat(512);
        for (text, first) in [
            ("(ports 17)\n(slots 3)\n(pear)\n", "(refused 1)"),
            ("(ports 0)\n", "(refused 1)"),
            ("(ports 2)\n(slots 3)\n(pear)\n", "(refused 2)"),
            ("(ports 2)\n(slots 65535)\n", "(refused 2)"),
            (&format!("{two}{outside}(pear)\n"), "(refused 8 (line 3))"),
            (&format!("{two}(pear)\n{outside}"), "(refused 7 (line 3))"),
            (&format!("{two}{flows}{outside}"), "(refused 21)"),
            (&format!("{two}{flows}(pear)\n"), "(refused 7 (line 515))"),
            (&format!("{two}{outside}{flows}"), "(refused 8 (line 3))"),
        ] {
            assert_eq!(refused(text.as_bytes()), first);
        }
        assert_eq!(refused(&[b'\n'; LONGEST_SHEET + 1]), "(refused 10)");
    }

    #[test]
    fn every_beginning_that_ends_within_a_line_has_its_fault_there() {
        let whole = TABLE7.as_bytes();
        for length in 0..whole.len() {
            let beginning = &whole[..length];
            let line_feeds = beginning.iter().filter(|&&byte| byte == b'\n').count();
            match Sheet::read(beginning) {
                Ok(sheet) => {
                    assert!(beginning.ends_with(b"\n") && sheet.list.len() + 2 == line_feeds)
                }
                Err(refused) => assert_eq!(
                    refused,
                    Refused::Form {
                        line: line_feeds + 1
                    }
                ),
            }
        }
    }

    #[test]
    fn a_sheet_with_one_byte_changed_is_the_same_sheet_or_none() {
        let whole = TABLE7.as_bytes();
        let bytes = [0xff, 0, b' ', b')', b'\n'];
        for (place, byte) in (0..whole.len()).flat_map(|place| bytes.map(|byte| (place, byte))) {
            let mut changed = whole.to_vec();
            changed[place] = byte;
            assert_eq!(Sheet::read(&changed).is_ok(), changed == whole);
        }
    }
}

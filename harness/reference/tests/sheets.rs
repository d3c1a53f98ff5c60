//! Sheets and what is printed for them.

use reference::{respond, LONGEST_SHEET, MOST_FLOWS};

fn printed(sheet: &str) -> String {
    String::from_utf8(respond(sheet.as_bytes())).unwrap()
}

#[test]
fn smallest_sheets() {
    let idle = "(frame (ports 1) (slots 2))\n(slot 1)\n(slot 2)\n";
    assert_eq!(printed("(ports 1)\n(slots 2)\n"), idle);
    let named_zero = "(ports 1)\n(slots 2)\n(pair (in 1) (out 1) (cells 0))\n";
    assert_eq!(printed(named_zero), idle);
}

#[test]
fn lines_that_break_the_form() {
    let cases = [
        ("", 1),
        ("\n", 1),
        ("(ports 1)", 1),
        ("(ports 1)\r\n", 1),
        ("(ports 01)\n", 1),
        ("(ports 65536)\n", 1),
        ("(ports )\n", 1),
        ("(ports +1)\n", 1),
        (" (ports 1)\n", 1),
        ("(ports  1)\n", 1),
        ("(Ports 1)\n", 1),
        ("(ports 1) \n", 1),
        ("(ports 1)\n", 2),
        ("(ports 1)\n(ports 1)\n", 2),
        ("(ports 1)\n(slots 1)", 2),
        ("(ports 1)\n(slots 00)\n", 2),
        ("(ports 1)\n(slots 1)\n\n", 3),
        ("(ports 1)\n(slots 1)\n(pair (in 1) (out 1) (cells 1))", 3),
        (
            "(ports 1)\n(slots 1)\n(pair (in 1) (out 1) (cells 65536))\n",
            3,
        ),
        (
            "(ports 1)\n(slots 1)\n(pair (in 9) (out 9) (cells 01))\n",
            3,
        ),
        ("(ports 1)\n(slots 1)\n(pair (in 1)(out 1) (cells 1))\n", 3),
        (
            "(ports 1)\n(slots 1)\n(pair (in 1) (out 1) (cells 1))\0\n",
            3,
        ),
    ];
    for (sheet, line) in cases {
        assert_eq!(printed(sheet), format!("(refused 7 (line {line}))\n"));
    }
}

#[test]
fn order_of_refusals() {
    let cases = [
        ("(ports 17)\n(slots 3)\n", "(refused 1)\n"),
        ("(ports 0)\nx", "(refused 1)\n"),
        ("(ports 2)\n(slots 3)\nx", "(refused 2)\n"),
        ("(ports 2)\n(slots 65535)\n", "(refused 2)\n"),
        (
            "(ports 2)\n(slots 1)\n(pair (in 1) (out 1) (cells 9))\n(pair (in 3) (out 1) (cells 0))\n",
            "(refused 8 (line 4))\n",
        ),
        (
            "(ports 2)\n(slots 1)\n(pair (in 1) (out 1) (cells 9))\n(pair (in 1) (out 1) (cells 9))\nx\n",
            "(refused 7 (line 5))\n",
        ),
        (
            "(ports 2)\n(slots 1)\n(pair (in 1) (out 0) (cells 9))\n(pair (in 1) (out 0) (cells 9))\n",
            "(refused 8 (line 3))\n",
        ),
        (
            "(ports 2)\n(slots 1)\n(pair (in 1) (out 1) (cells 1))\n(pair (in 1) (out 1) (cells 1))\n",
            "(refused 5 (port 1) (cells 2))\n",
        ),
        (
            "(ports 2)\n(slots 1)\n(pair (in 2) (out 1) (cells 65535))\n(pair (in 2) (out 2) (cells 65535))\n",
            "(refused 5 (port 2) (cells 131070))\n",
        ),
        (
            "(ports 2)\n(slots 1)\n(pair (in 2) (out 2) (cells 1))\n(pair (in 1) (out 2) (cells 1))\n",
            "(refused 6 (port 2) (cells 2))\n",
        ),
    ];
    for (sheet, response) in cases {
        assert_eq!(printed(sheet), response);
    }
}

#[test]
fn several_lines_with_the_same_pair() {
    let line = "(pair (in 2) (out 1) (cells 1))\n";
    let sheet = format!("(ports 2)\n(slots 4)\n{line}(pair (in 1) (out 1) (cells 0))\n{line}");
    let frame = "(frame (ports 2) (slots 4))\n(slot 1 1)\n(slot 2)\n(slot 3 3)\n(slot 4)\n";
    assert_eq!(printed(&sheet), frame);
}

/// So many flow lines, and then one that breaks the form, has a port outside or is as it should be.
#[test]
fn a_line_more_than_there_may_be_flows() {
    let good = "(pair (in 1) (out 1) (cells 0))\n";
    let bad = "(pair (in 1) (out 1) (cells 00))\n";
    let outside = "(pair (in 1) (out 2) (cells 0))\n";
    let idle = "(frame (ports 1) (slots 1))\n(slot 1)\n";
    let sheet = |flows: usize, last: &str| {
        let lines = good.repeat(flows);
        printed(&format!("(ports 1)\n(slots 1)\n{lines}{last}"))
    };
    let (all, line) = (MOST_FLOWS, MOST_FLOWS + 3);
    assert_eq!(sheet(all - 1, good), idle);
    assert_eq!(
        sheet(all - 1, outside),
        format!("(refused 8 (line {}))\n", line - 1)
    );
    assert_eq!(sheet(all, ""), idle);
    assert_eq!(sheet(all, good), "(refused 21)\n");
    assert_eq!(sheet(all, outside), "(refused 21)\n");
    assert_eq!(sheet(all, bad), format!("(refused 7 (line {line}))\n"));
    assert_eq!(sheet(all + 1, bad), "(refused 21)\n");
}

/// The largest of all frames that a sheet asks for, and the numbers of its flows.
#[test]
fn flow_numbers_of_three_digits() {
    let lines = "(pair (in 1) (out 1) (cells 0))\n".repeat(MOST_FLOWS - 1);
    let last = "(pair (in 16) (out 16) (cells 1024))\n";
    let response = printed(&format!("(ports 16)\n(slots 1024)\n{lines}{last}"));
    let slots = (1..=1_024).map(|slot| format!("(slot {slot} 512)\n"));
    let frame = format!(
        "(frame (ports 16) (slots 1024))\n{}",
        slots.collect::<String>()
    );
    assert_eq!(response, frame);
}

#[test]
fn length_comes_before_all_else() {
    let full = vec![0xff; LONGEST_SHEET];
    assert_eq!(respond(&full), b"(refused 7 (line 1))\n");
    let over = [&full[..], b"\n"].concat();
    assert_eq!(respond(&over), b"(refused 10)\n");
}

#[test]
fn last_line_of_the_longest_sheet_is_counted() {
    let mut sheet = b"(ports 1)\n(slots 1)\n(pair (in 1) (out 1) (cells 1))\n".to_vec();
    sheet.resize(LONGEST_SHEET, b'\n');
    assert_eq!(respond(&sheet), b"(refused 7 (line 4))\n");
}

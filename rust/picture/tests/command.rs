//! The command: what it writes where, and its exit code.

use std::io::Write;
use std::process::{Command, Output, Stdio};
use std::time::{Duration, Instant};

const TABLE7: &str = include_str!("../../../examples/table7.sheet");
const LARGEST: &str = include_str!("../../../examples/largest.sheet");
const OVERLOADED: &str = include_str!("../../../examples/overloaded.sheet");
const TOO_MANY: &str = include_str!("../../../examples/too-many.sheet");
const TOO_LONG: &str = include_str!("../../../examples/too-long.sheet");
const TABLE7_FILE: &str = concat!(env!("CARGO_MANIFEST_DIR"), "/../../examples/table7.sheet");
/// The script that says what is wrong with a refused sheet, and the name by which the command has it.
const SCRIPT: &str = concat!(env!("CARGO_MANIFEST_DIR"), "/../../command/explain");
const SCRIPT_NAME: &str = "FRAME_BUILDER_EXPLAIN";

fn run(line: &str, input: &[u8]) -> Output {
    let mut command = Command::new(env!("CARGO_BIN_EXE_picture"));
    command.env_remove(SCRIPT_NAME);
    run_with(command.args(line.split_whitespace()), input)
}

fn run_with(command: &mut Command, input: &[u8]) -> Output {
    let mut command = command
        .stdin(Stdio::piped())
        .stdout(Stdio::piped())
        .stderr(Stdio::piped())
        .spawn()
        .unwrap();
    let mut pipe = command.stdin.take().unwrap();
    // A command that refuses its words may have closed the pipe already.
    let _ = pipe.write_all(input);
    drop(pipe);
    command.wait_with_output().unwrap()
}

fn refuses(line: &str, input: &[u8], part: &str) {
    let output = run(line, input);
    let what = String::from_utf8(output.stderr).unwrap();
    assert_eq!(output.status.code(), Some(2), "{line}: {what}");
    assert!(output.stdout.is_empty(), "{line}: {what}");
    assert!(what.starts_with("picture: "), "{line}: {what}");
    assert!(what.contains(" --help says "), "{line}: {what}");
    assert!(what.contains(part), "{line}: {what}");
    assert_eq!(what.lines().count(), 1, "{line}: {what}");
}

#[test]
fn pictures_go_to_standard_output() {
    for line in [
        "frame",
        "frame --by-output",
        "flow 5",
        "input 1",
        "output 4",
    ] {
        let output = run(line, TABLE7.as_bytes());
        assert_eq!(output.status.code(), Some(0), "{line}");
        assert!(output.stderr.is_empty(), "{line}");
        let text = String::from_utf8(output.stdout).unwrap();
        assert!(text.starts_with("<svg "), "{line}");
        assert!(text.ends_with("</svg>\n"), "{line}");
        let of_file = run(&format!("{line} {TABLE7_FILE}"), b"");
        assert_eq!(of_file.stdout, text.as_bytes(), "{line}");
        let of_dash = run(&format!("{line} -"), TABLE7.as_bytes());
        assert_eq!(of_dash.stdout, text.as_bytes(), "{line}");
    }
}

/// Each takes about a twentieth of that on a machine with nothing else to do.
#[test]
fn the_largest_pictures_take_less_than_a_second() {
    for line in [
        "frame",
        "frame --by-output",
        "flow 512",
        "input 16",
        "output 16",
    ] {
        let begun = Instant::now();
        let output = run(line, LARGEST.as_bytes());
        let taken = begun.elapsed();
        assert_eq!(output.status.code(), Some(0), "{line}");
        assert!(taken < Duration::from_secs(1), "{line}: {taken:?}");
    }
}

#[test]
fn help_goes_to_standard_output() {
    let output = run("--help", b"");
    assert_eq!(output.status.code(), Some(0));
    let text = String::from_utf8(output.stdout).unwrap();
    assert!(text.contains("./picture flow F [SHEET]"));
    assert!(text.contains("./picture frame --by-output [SHEET]"));
}

#[test]
fn wrong_words_go_to_standard_error() {
    let table7 = TABLE7.as_bytes();
    refuses("", table7, "which picture?");
    refuses("flow", table7, "a flow is missing");
    refuses("films", table7, "\"films\" is no picture");
    refuses("--help frame", table7, "\"--help\" is no picture");
    refuses("flow x", table7, "\"x\" is no flow");
    refuses("flow 6", table7, "flow 6: the sheet has flows 1 to 5");
    refuses("output 0", table7, "output 0: the sheet has ports 1 to 4");
    refuses("frame nowhere.sheet", b"", "nowhere.sheet: ");
    refuses("frame src", b"", "src: ");
    let named = format!("{TABLE7_FILE} {TABLE7_FILE}");
    refuses(&format!("frame {named}"), b"", "one sheet at a time");
    let after = format!("frame {TABLE7_FILE} --by-output");
    refuses(&after, b"", "one sheet at a time");
}

/// The same cells by input and by output, and the output down the side.
#[test]
fn a_frame_by_output_is_the_frame_turned() {
    let drawn = |line: &str| String::from_utf8(run(line, TABLE7.as_bytes()).stdout).unwrap();
    let cells = |text: &str| {
        let titles = text
            .split("<title>")
            .filter(|part| part.starts_with("flow "));
        let titles = titles.map(|part| part.split_once("</title>").unwrap().0.to_string());
        let mut titles: Vec<String> = titles.collect();
        titles.sort();
        titles
    };
    let (by_input, by_output) = (drawn("frame"), drawn("frame --by-output"));
    assert_ne!(by_input, by_output);
    assert_eq!(cells(&by_input).len(), 8);
    assert_eq!(cells(&by_input), cells(&by_output));
    assert!(by_output.contains("<title>Frame of 4 ports and 4 slots, by output</title>"));
}

/// The refusals of sheets, as the sheet program prints them.
fn refusals() -> Vec<(Vec<u8>, &'static str)> {
    let mistakes = "(ports 4)\n(slots\t4)\n(pair (in 9) (out 1) (cells 1,000))\n\n(pear)";
    let sheets: [(&[u8], &str); 9] = [
        (b"", "(refused 7 (line 1))"),
        (mistakes.as_bytes(), "(refused 7 (line 2))"),
        (&TABLE7.as_bytes()[..60], "(refused 7 (line 4))"),
        (b"\xff\0\n(slots 4)\n", "(refused 7 (line 1))"),
        (b"(ports 65535)\n(slots 65535)\n", "(refused 1)"),
        (OVERLOADED.as_bytes(), "(refused 6 (port 2) (cells 9))"),
        (TOO_MANY.as_bytes(), "(refused 21)"),
        (TOO_LONG.as_bytes(), "(refused 10)"),
        (&[0xff; 1_000_000], "(refused 10)"),
    ];
    let owned = |(sheet, refusal): (&[u8], _)| (sheet.to_vec(), refusal);
    sheets.into_iter().map(owned).collect()
}

#[test]
fn wrong_sheets_are_refused() {
    for (sheet, refusal) in refusals() {
        for line in ["frame", "frame --by-output"] {
            refuses(line, &sheet, &format!("the sheet is refused: {refusal};"));
        }
    }
}

#[test]
fn a_script_says_what_is_wrong() {
    for (sheet, refusal) in refusals() {
        let said = run_with(Command::new(SCRIPT).args(["-", refusal]), &sheet).stdout;
        let said = String::from_utf8(said).unwrap();
        assert!(said.starts_with("refused: "), "{refusal}: {said}");
        let lines = said.lines().map(|line| format!("picture: {line}\n"));
        let mut command = Command::new(env!("CARGO_BIN_EXE_picture"));
        let output = run_with(command.arg("frame").env(SCRIPT_NAME, SCRIPT), &sheet);
        let what = String::from_utf8(output.stderr).unwrap();
        assert_eq!(what, lines.collect::<String>(), "{refusal}");
        assert_eq!(output.status.code(), Some(2), "{refusal}");
        assert!(output.stdout.is_empty(), "{refusal}");
    }
}

#[test]
fn a_script_that_fails_is_passed_over() {
    for script in ["/nowhere", "false", "true"] {
        let mut command = Command::new(env!("CARGO_BIN_EXE_picture"));
        let output = run_with(command.arg("frame").env(SCRIPT_NAME, script), b"");
        let what = String::from_utf8(output.stderr).unwrap();
        let plain = "picture: the sheet is refused: (refused 7 (line 1)); ";
        assert!(what.starts_with(plain), "{script}: {what}");
        assert_eq!(output.status.code(), Some(2), "{script}");
    }
}

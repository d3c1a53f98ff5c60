//! The pictures in docs/ are what the command draws of the examples now.

use std::fs;
use std::path::PathBuf;

use frame_builder::Side;
use picture::{draw, draw_frame, Frame, Picture, Request, Sheet};

fn from_top(path: &str) -> PathBuf {
    PathBuf::from(env!("CARGO_MANIFEST_DIR"))
        .join("../..")
        .join(path)
}

fn sheet_of(example: &str) -> Vec<u8> {
    fs::read(from_top(&format!("examples/{example}.sheet"))).unwrap()
}

/// The picture in docs is the one that the words ask for of an example.
fn hold(example: &str, line: &str, name: &str) {
    let words: Vec<String> = line.split(' ').map(String::from).collect();
    let picture = Request::read(&words).unwrap().picture;
    let drawn = draw(picture, &sheet_of(example)).unwrap();
    let again = format!("./picture {line} examples/{example}.sheet > docs/{name}.svg");
    hold_drawn(&drawn, name, &again);
}

fn hold_drawn(drawn: &str, name: &str, again: &str) {
    let held = fs::read_to_string(from_top(&format!("docs/{name}.svg"))).unwrap();
    assert!(drawn == held, "docs/{name}.svg is out of date: {again}");
    assert!(held.len() < 400_000, "docs/{name}.svg is too large");
}

#[test]
fn table_7() {
    hold("table7", "frame", "table7-frame");
    hold("table7", "flow 5", "table7-flow");
}

/// Two flows of one pair.
#[test]
fn sound_and_picture() {
    hold("sound-and-picture", "frame", "sound-and-picture");
}

/// Sixteen one-cell flows: as the tie rule has them, and as the one before it did, which put all of them into slot 1.
#[test]
fn one_cell_flows() {
    hold("sixteen", "frame", "sixteen-after");
    let sheet = Sheet::read(&sheet_of("sixteen")).unwrap();
    let mut entries: Vec<u16> = (1..=16).collect();
    entries.resize(16 * 16, 0);
    let before = Frame::of_entries(sheet, entries).unwrap();
    let again = "the frame with flows 1 to 16 in slot 1";
    hold_drawn(&draw_frame(&before), "sixteen-before", again);
}

/// As many ports, slots, flows and cells as there can be; half of the flows have the same ports as the others.
#[test]
fn the_largest_is_of_moderate_size() {
    for side in [Side::Input, Side::Output] {
        let drawn = draw(Picture::Frame(side), &sheet_of("largest")).unwrap();
        assert_eq!(drawn.matches("<title>flow ").count(), 16 * 1_024);
        assert!(drawn.len() < 3_000_000, "{} bytes", drawn.len());
    }
}

#[test]
fn a_full_switch() {
    hold("full", "frame", "full-frame");
    hold("full", "flow 225", "full-flow");
}

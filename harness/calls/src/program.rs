//! The sheet program, run as a house runs it.

use std::io::Write;
use std::path::Path;
use std::process::{Command, Stdio};

/// What the program prints for a sheet on standard input.
pub fn respond(sheet: &[u8]) -> Vec<u8> {
    let program = Path::new(env!("CARGO_MANIFEST_DIR")).join("../../target/bin/frame");
    let mut child = Command::new(program)
        .stdin(Stdio::piped())
        .stdout(Stdio::piped())
        .spawn()
        .expect("the program frame is built");
    let mut input = child.stdin.take().expect("standard input is piped");
    input
        .write_all(sheet)
        .expect("the program reads to the end");
    drop(input);
    let output = child.wait_with_output().expect("the program ends");
    output.stdout
}

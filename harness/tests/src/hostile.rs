//! Makes hostile calls on the proved frame builder, each through C and through Rust, and compares both with the reference.

use std::process::ExitCode;

use calls::{InC, Library};
use tests::command::{read_settings, run_as_told};
use tests::{run_hostile, Face, HostileKind};

const USAGE: &str =
    "hostile [--million] [--seed SEED] [--count CASES_PER_CALL] [--kind NAME] [--first CASE]";

const CALLS: u64 = 100_000;

fn main() -> ExitCode {
    let mut words: Vec<String> = std::env::args().skip(1).collect();
    let million = words.iter().any(|word| word == "--million");
    words.retain(|word| word != "--million");
    let calls = if million { 1_000_000 } else { CALLS };
    let kinds = HostileKind::ALL.len() as u64;
    let settings = read_settings(words.into_iter(), calls.div_ceil(kinds));
    let (in_c, library) = (InC::default(), Library::default());
    let faces = [
        Face {
            name: "C",
            calls: &in_c,
        },
        Face {
            name: "Rust",
            calls: &library,
        },
    ];
    run_as_told(settings, USAGE, "call", |settings| {
        run_hostile(&faces, settings)
    })
}

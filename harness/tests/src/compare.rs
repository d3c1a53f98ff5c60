//! Compares the proved frame builder with the reference on random cases.

use std::process::ExitCode;

use calls::Library;
use tests::command::{read_settings, run_as_told};
use tests::run;

const USAGE: &str = "compare [--count CASES_PER_KIND] [--seed SEED] [--kind NAME] [--first CASE]";

const COUNT: u64 = 2_000;

fn main() -> ExitCode {
    let library = Library::default();
    let settings = read_settings(std::env::args().skip(1), COUNT);
    run_as_told(settings, USAGE, "kind", |settings| run(&library, settings))
}

//! Runs the random cases of each call through a C program that makes the calls of two versions, as `harness/compare_versions` builds it.

use std::process::ExitCode;

use calls::InC;
use tests::command::{read_settings, run_as_told};
use tests::{run, Kind, Report, Settings};

const USAGE: &str = "versions PROGRAM input-side|both-sides [--count CASES_OF_EACH_CALL] \
    [--seed SEED] [--kind NAME] [--first CASE]";

const COUNT: u64 = 100_000;

/// What the kinds of each call's cases begin with.
const CALLS: [&str; 6] = ["admit/", "build/", "inspect/", "view/", "count/", "depth/"];

/// The same of the calls that are told the output side, and of Turn, which an older version may not have.
const BY_OUTPUTS: [&str; 3] = ["inspect-by-outputs/", "count-by-outputs/", "turn/"];

/// What the kinds begin with of the calls that are made where both versions have these sides.
fn calls_on(sides: &str) -> Option<Vec<&'static str>> {
    match sides {
        "input-side" => Some(CALLS.to_vec()),
        "both-sides" => Some([&CALLS[..], &BY_OUTPUTS].concat()),
        _ => None,
    }
}

/// So many cases of each call, spread over its kinds; or those of the kinds that are named.
fn run_calls(both: &InC, calls: &[&str], settings: &Settings) -> Report {
    if !settings.kind.is_empty() {
        return run(both, settings);
    }
    let mut report = Report::default();
    for &call in calls {
        let names = Kind::all().into_iter().map(Kind::name);
        let kinds = names.filter(|name| name.starts_with(call)).count() as u64;
        report.merge(run(
            both,
            &Settings {
                kind: call.into(),
                count: settings.count.div_ceil(kinds),
                ..settings.clone()
            },
        ));
    }
    report
}

fn main() -> ExitCode {
    let mut words = std::env::args().skip(1);
    let program = words.next().unwrap_or_default();
    let calls = words.next().and_then(|sides| calls_on(&sides));
    let settings = calls.as_ref().and_then(|_| read_settings(words, COUNT));
    let (both, calls) = (InC::over(&program), calls.unwrap_or_default());
    run_as_told(settings, USAGE, "call", |settings| {
        run_calls(&both, &calls, settings)
    })
}

//! What the commands that run cases have in common.

use std::process::ExitCode;

use crate::runner::{Report, Settings};
use crate::summary::summary;

const FAILURES_SHOWN: usize = 20;

/// The settings named on the command line, with so many cases of each kind where it does not say.
pub fn read_settings(mut words: impl Iterator<Item = String>, count: u64) -> Option<Settings> {
    let mut settings = Settings {
        seed: 1,
        first: 0,
        count,
        kind: String::new(),
    };
    while let Some(option) = words.next() {
        let value = words.next()?;
        match option.as_str() {
            "--count" => settings.count = value.parse().ok()?,
            "--seed" => settings.seed = value.parse().ok()?,
            "--first" => settings.first = value.parse().ok()?,
            "--kind" => settings.kind = value,
            _ => return None,
        }
    }
    Some(settings)
}

/// Runs cases as the settings say, so many of each kind or call, and prints what they came to; without settings, how to give them.
pub fn run_as_told(
    settings: Option<Settings>,
    usage: &str,
    each: &str,
    run: impl Fn(&Settings) -> Report,
) -> ExitCode {
    let Some(settings) = settings else {
        eprintln!("{usage}");
        return ExitCode::from(2);
    };
    println!(
        "seed {}, {} cases of each {each}",
        settings.seed, settings.count
    );
    let report = run(&settings);
    print_report(&report);
    let sound = report.passed > 0 && report.failed() == 0;
    ExitCode::from(u8::from(!sound))
}

fn print_report(report: &Report) {
    for (name, count) in report.hits.iter() {
        println!("{count:>9}  {name}");
    }
    for line in summary(&report.hits) {
        println!("{line}");
    }
    for name in &report.never_hit {
        println!("never hit: {name}");
    }
    for failure in report.failures.values().take(FAILURES_SHOWN) {
        println!("failed: {failure}");
    }
    println!("{} passed, {} failed", report.passed, report.failed());
}

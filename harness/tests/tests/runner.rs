//! The runner reports what it should.

use tests::broken::{self, Broken};
use tests::{run, Settings};

fn settings(kind: &str, first: u64, count: u64) -> Settings {
    Settings {
        seed: 3,
        first,
        count,
        kind: kind.into(),
    }
}

#[test]
fn a_failure_can_be_run_again() {
    let builder = Broken {
        build: broken::idle_frame,
        ..Broken::default()
    };
    let report = run(&builder, &settings("build/full", 0, 3));
    assert_eq!(report.passed, 0);
    assert_eq!(report.failed(), 3);
    let options = "--seed 3 --kind build/full --first 1 --count 1";
    let second = report.failures.iter().nth(1);
    assert!(second.is_some_and(|(_, failure)| failure.ends_with(options)));
    let again = run(&builder, &settings("build/full", 1, 1));
    assert_eq!(again.failures.iter().next(), second);
}

#[test]
fn a_panic_fails_its_case() {
    let builder = Broken {
        respond: |_| panic!("meant to"),
        ..Broken::default()
    };
    let report = run(&builder, &settings("sheet/empty", 0, 2));
    assert_eq!((report.passed, report.failed()), (0, 2));
}

#[test]
fn a_whole_run_must_come_upon_everything() {
    let report = run(&Broken::default(), &settings("", 0, 1));
    assert!(report.failures.is_empty());
    assert!(report.failed() > 0);
    for name in [
        "count refusal 13",
        "inspect by outputs unbalanced block of 1024",
        "turn by outputs refusal 21",
    ] {
        assert!(report.never_hit.contains(&name.to_string()), "{name}");
    }
}

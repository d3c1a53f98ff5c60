//! Runs the cases, shared out over the processor's cores.

use std::collections::BTreeMap;
use std::panic::{catch_unwind, AssertUnwindSafe};
use std::thread;

use calls::{Calls, SheetProgram};
use loads::Random;

use crate::hits::Hits;
use crate::kind::Kind;
use crate::verdict::Verdict;

/// Which cases to run.
#[derive(Clone, Debug)]
pub struct Settings {
    pub seed: u64,
    /// The number of the first case of each kind.
    pub first: u64,
    /// The number of cases of each kind.
    pub count: u64,
    /// Only kinds whose name begins with this.
    pub kind: String,
}

impl Settings {
    /// A part of the cases cannot be asked to come upon everything.
    fn is_whole(&self) -> bool {
        self.kind.is_empty() && self.first == 0
    }
}

/// What the cases came to.
#[derive(Clone, Debug, Default)]
pub struct Report {
    pub passed: u64,
    /// Cases the candidate got wrong, by kind and number, with the options that repeat them.
    pub failures: BTreeMap<(u64, u64), String>,
    /// Things a whole run should have come upon and did not.
    pub never_hit: Vec<String>,
    pub hits: Hits,
}

impl Report {
    pub fn failed(&self) -> u64 {
        (self.failures.len() + self.never_hit.len()) as u64
    }

    pub fn merge(&mut self, other: Report) {
        self.passed += other.passed;
        self.failures.extend(other.failures);
        self.hits.merge(other.hits);
    }

    /// Each thing required counts as one check of its own.
    fn check_required(&mut self, required: Vec<String>) {
        for name in required {
            if self.hits.count(&name) > 0 {
                self.passed += 1;
            } else {
                self.never_hit.push(name);
            }
        }
    }
}

/// Runs one case.
type Check<'c> = dyn Fn(&mut Random, &mut Hits) -> Verdict + Sync + 'c;

/// The cases of one kind.
pub struct Cases<'c> {
    pub name: String,
    pub check: Box<Check<'c>>,
}

/// Runs the cases of every kind against the candidate.
pub fn run<B: Calls + SheetProgram + Sync>(candidate: &B, settings: &Settings) -> Report {
    let kinds = Kind::all().into_iter().map(|kind| Cases {
        name: kind.name(),
        check: Box::new(move |random, hits| kind.check(candidate, random, hits)),
    });
    run_cases(&kinds.collect::<Vec<_>>(), Hits::required(), settings)
}

/// Runs cases; a whole run must come upon everything that is required.
pub fn run_cases(kinds: &[Cases], required: Vec<String>, settings: &Settings) -> Report {
    let workers = thread::available_parallelism().map_or(1, |cores| cores.get() as u64);
    let parts: Vec<Report> = thread::scope(|scope| {
        let started: Vec<_> = (0..workers)
            .map(|worker| scope.spawn(move || run_part(kinds, settings, worker, workers)))
            .collect();
        let finished = started.into_iter().map(|thread| thread.join());
        finished
            .map(|part| part.expect("every case is guarded"))
            .collect()
    });
    let mut report = Report::default();
    for part in parts {
        report.merge(part);
    }
    if settings.is_whole() {
        report.check_required(required);
    }
    report
}

/// Runs every so-manieth case of each kind.
fn run_part(kinds: &[Cases], settings: &Settings, worker: u64, workers: u64) -> Report {
    let mut report = Report::default();
    for (order, kind) in (0..).zip(kinds) {
        if !kind.name.starts_with(&settings.kind) {
            continue;
        }
        let cases = settings.first..settings.first + settings.count;
        for case in cases.filter(|case| case % workers == worker) {
            let mut random = Random::for_case(&[settings.seed, order, case]);
            report.hits.add(format!("case {}", kind.name));
            match check_guarded(kind, &mut random, &mut report.hits) {
                Ok(()) => report.passed += 1,
                Err(complaint) => {
                    let failure = describe(&complaint, &kind.name, settings.seed, case);
                    report.failures.insert((order, case), failure);
                }
            }
        }
    }
    report
}

/// A candidate that panics has failed its case, not ended the run.
fn check_guarded(kind: &Cases, random: &mut Random, hits: &mut Hits) -> Verdict {
    let check = AssertUnwindSafe(|| (kind.check)(random, hits));
    catch_unwind(check).unwrap_or_else(|panic| {
        let said = panic.downcast_ref::<String>().map(String::as_str);
        let said = said.or(panic.downcast_ref::<&str>().copied());
        Err(format!("panicked: {}", said.unwrap_or_default()))
    })
}

/// What went wrong in a case and how to run it again.
fn describe(complaint: &str, name: &str, seed: u64, case: u64) -> String {
    format!("{name}: {complaint}; again with --seed {seed} --kind {name} --first {case} --count 1")
}

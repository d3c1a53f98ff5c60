//! The bench loads of document 01, each by name. Every case is asked of the reference, and of the proved calls through Rust and through C.
//! A list that is not of whole flows is no slice of flows in Rust, so that its case goes through C twice.

/// Checks cases: the name of each, the call, and the numbers of its answer.
macro_rules! cases {
    ($($name:literal: $asked:expr => $answer:expr;)*) => {
        $crate::check(&[$($crate::Case {
            name: $name,
            asked: $asked,
            answer: $answer.to_vec(),
        }),*])
    };
}

mod admits;
mod asked;
mod builds;
mod counts;
mod counts_by_outputs;
mod depths;
mod faults_by_outputs;
mod links;
mod lists;
mod refused_counts;
mod refused_depths;
mod refused_turns;
mod turns;
mod views;
mod wire;

use std::collections::BTreeSet;
use std::panic::{catch_unwind, AssertUnwindSafe};

use calls::{InC, Library, Reference};
use tests::Face;

use asked::Asked;

struct Case {
    name: &'static str,
    asked: Asked,
    answer: Vec<i64>,
}

impl Case {
    /// What is wrong with the answer through a face, if anything is.
    fn complaint(&self, face: Face) -> Option<String> {
        let (name, right, through) = (self.name, &self.answer, face.name);
        match catch_unwind(AssertUnwindSafe(|| (self.asked)(face.calls))) {
            Ok(given) if given == *right => None,
            Ok(given) => Some(format!(
                "{name}, through {through}: {given:?}, not {right:?}"
            )),
            Err(_) => Some(format!("{name}, through {through}: panicked")),
        }
    }
}

/// The builders that every case is asked of.
#[derive(Default)]
struct Builders {
    library: Library,
    in_c: InC,
}

impl Builders {
    fn faces(&self) -> [Face<'_>; 3] {
        let face = |name, calls| Face { name, calls };
        [
            face("the reference", &Reference),
            face("Rust", &self.library),
            face("C", &self.in_c),
        ]
    }
}

/// Fails with every case that has a wrong answer.
fn check(cases: &[Case]) {
    let names: BTreeSet<&str> = cases.iter().map(|case| case.name).collect();
    assert_eq!(names.len(), cases.len(), "each case has its own name");
    let builders = Builders::default();
    let faces = builders.faces().into_iter();
    let wrong = faces.flat_map(|face| cases.iter().filter_map(move |case| case.complaint(face)));
    let wrong: Vec<String> = wrong.collect();
    assert!(wrong.is_empty(), "{}", wrong.join("\n"));
}

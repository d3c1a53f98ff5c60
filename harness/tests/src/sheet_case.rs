//! Cases of the sheet program.

use calls::SheetProgram;
use loads::{sheet, Random, SheetKind, MOST_FLOWS};

use crate::hits::{Hits, FLOW_LINES};
use crate::verdict::{expect, Verdict};

/// Holds all that is printed for a sheet against what the reference prints.
pub fn check_sheet(
    candidate: &dyn SheetProgram,
    kind: SheetKind,
    random: &mut Random,
    hits: &mut Hits,
) -> Verdict {
    let sheet = sheet(kind, random);
    let given = candidate.respond(&sheet);
    let right = reference::respond(&sheet);
    hits.add(name_of(&right));
    hits.add(name_by_lines(&sheet));
    expect(given == right, || {
        let line = first_difference(&given, &right);
        format!(
            "sheet of {} bytes: response differs at line {line}",
            sheet.len()
        )
    })
}

/// The name a response goes by in the counts of what was hit.
fn name_of(response: &[u8]) -> String {
    let text = String::from_utf8_lossy(response);
    let refused = text.strip_prefix("(refused ");
    let number = refused.and_then(|rest| rest.split([' ', ')']).next());
    match number {
        Some(number) => format!("sheet refusal {number}"),
        None => "sheet frame".into(),
    }
}

/// The name a sheet goes by there, by how many of its lines begin as flow lines do.
fn name_by_lines(sheet: &[u8]) -> &'static str {
    let lines = sheet.split(|&byte| byte == b'\n');
    let flows = lines.filter(|line| line.starts_with(b"(pair ")).count();
    let [none, some, most, too_many] = FLOW_LINES;
    match flows {
        0 => none,
        1..MOST_FLOWS => some,
        MOST_FLOWS => most,
        _ => too_many,
    }
}

/// The number of the first line in which two responses differ.
fn first_difference(given: &[u8], right: &[u8]) -> usize {
    let same = given.iter().zip(right).take_while(|(a, b)| a == b);
    let shared = same.count();
    let ends = given[..shared].iter().filter(|&&byte| byte == b'\n');
    ends.count() + 1
}

//! What is said of the bounds at the end of a run.

use reference::wait::Allowed;
use reference::wire::{demanded, deviation, repeat_deviation};
use reference::work::bound;

use crate::hits::{Hits, Part, Queued, Used, Waited, BOUND_COMPARED, BOUND_REACHED, FOR_EACH_K};

/// The places of a row that have a column: one switch by itself, then the second to the fifth of a row.
const PLACES: [usize; 5] = [1, 2, 3, 4, 5];

/// A line for each thing that is counted for each k, then the tables of the bounds of loads, of the furthest leads, the deepest queues, the longest waits
/// and the most odd counts settled.
pub fn summary(hits: &Hits) -> Vec<String> {
    let mut lines: Vec<String> = FOR_EACH_K
        .iter()
        .filter_map(|name| line(hits, name))
        .collect();
    lines.extend(parts(hits));
    lines.extend(leads(hits));
    lines.extend(depths(hits));
    lines.extend(waits(hits));
    lines.extend(paced_waits(hits));
    lines.extend(settled(hits));
    lines
}

/// A table, or nothing where it has no rows.
fn table(title: &str, head: String, rows: impl Iterator<Item = String>) -> Vec<String> {
    let rows: Vec<String> = rows.collect();
    if rows.is_empty() {
        return rows;
    }
    let lines = [title.to_string(), head];
    lines.into_iter().chain(rows).collect()
}

/// How often something happened for each k; nothing where it never did.
fn line(hits: &Hits, name: &'static str) -> Option<String> {
    let counts = (1..=10).map(|k| (k, hits.count_at(name, k)));
    let said: Vec<String> = counts
        .clone()
        .map(|(k, count)| format!("k={k} {count} times"))
        .collect();
    let any = counts.map(|(_, count)| count).sum::<u64>() > 0;
    any.then(|| format!("{name}: {}", said.join(", ")))
}

/// The largest parts of the bounds of loads that runs of chains used, and leads of one frame; nothing where none was counted.
fn parts(hits: &Hits) -> Vec<String> {
    let rows = (1..=10).filter_map(|k| {
        let largest = [Used::Run, Used::Lead].map(|used| hits.largest_part(k, used));
        let any = largest.iter().any(Option::is_some);
        let [run, lead] = largest.map(part_columns);
        let [reached, compared] =
            [BOUND_REACHED, BOUND_COMPARED].map(|name| hits.count_at(name, k));
        any.then(|| format!("{k:>3} |{run} {reached:>8} {compared:>9} |{lead}"))
    });
    let title = "largest part of the bound of the load, in parts of 1/2^k of a cell: of runs of chains that may be off at both ends, and how often they came to all of it; of leads of one frame";
    let [run, lead] = [(); 2].map(|()| part_row(["seen", "bound", "part"].map(String::from)));
    let head = format!("{:>3} |{run} {:>8} {:>9} |{lead}", "k", "reached", "of");
    table(title, head, rows)
}

fn part_columns(part: Option<Part>) -> String {
    let Some(Part { seen, bound }) = part else {
        return part_row([(); 3].map(|()| "-".into()));
    };
    let part = seen as f64 / bound as f64;
    part_row([seen.to_string(), bound.to_string(), format!("{part:.4}")])
}

fn part_row(columns: [String; 3]) -> String {
    let columns = columns.iter().map(|column| format!(" {column:>8}"));
    columns.collect()
}

/// The leads of built frames that were furthest from 0, beside what is allowed; nothing where no such frame was counted.
fn leads(hits: &Hits) -> Vec<String> {
    let rows = (0..=10).filter_map(|k| {
        let seen = hits.furthest_lead(k)?;
        let (slots, most) = (1 << k, repeat_deviation(k));
        let allowed = demanded(k) as f64 / 3.0;
        let ratio = seen as f64 / allowed;
        Some(format!(
            "{k:>3} {slots:>9} {seen:>9} {allowed:>13.3} {most:>9} {ratio:>9.4}"
        ))
    });
    let title = "furthest leads of built frames, in parts of 1/2^k of a cell";
    let head = format!(
        "{:>3} {:>9} {:>9} {:>13} {:>9} {:>9}",
        "k", "slots", "seen", "(2k+1)2^k/3", "at most", "ratio"
    );
    table(title, head, rows)
}

/// The deepest queues beside what is allowed, in cells; nothing where no queue was run.
fn depths(hits: &Hits) -> Vec<String> {
    let rows = (0..=10).filter_map(|k| {
        let depths = PLACES.map(|place| hits.deepest(k, place));
        let any = depths.iter().any(Option::is_some);
        let allowed = |times| in_cells(times * deviation(k), k);
        let [one, later @ ..] = depths.map(|parts| match parts {
            Some(parts) => in_cells(parts, k),
            None => "-".into(),
        });
        let later: String = later.iter().map(|cells| format!("{cells:>9}")).collect();
        let (one_allowed, later_allowed) = (allowed(2), allowed(4));
        any.then(|| format!("{k:>3} {one_allowed:>9} {one:>9} {later_allowed:>9} {later}"))
    });
    let title =
        "deepest queues after a slot, in cells: one switch, above a; the later switches of a row";
    let head = format!(
        "{:>3} {:>9} {:>9} {:>9} {:>9}{:>9}{:>9}{:>9}",
        "k", "2p(k)", "seen", "4p(k)", "2nd", "3rd", "4th", "5th"
    );
    table(title, head, rows)
}

/// The waits that came nearest to what is allowed, in slots; nothing where no chain was counted.
fn waits(hits: &Hits) -> Vec<String> {
    let rows = (0..=10).filter_map(|k| {
        let nearest = [Queued::First, Queued::Further].map(|queued| hits.nearest_wait(k, queued));
        let any = nearest.iter().any(Option::is_some);
        let slots = 1 << k;
        let [first, other] = nearest.map(|waited| wait_columns(k, waited));
        any.then(|| format!("{k:>3} {slots:>6} |{first} |{other}"))
    });
    let title = "longest waits in slots, nearest to the bound of the load: of the first in the queue; of the w-th";
    let columns = wait_row(["wait", "allowed", "(2k+1)/3", "ratio", "m", "w"].map(String::from));
    let head = format!("{:>3} {:>6} |{columns} |{columns}", "k", "slots");
    table(title, head, rows)
}

/// A wait beside both bounds.
fn wait_columns(k: u32, waited: Option<Waited>) -> String {
    let Some(Waited {
        slots,
        allowed,
        m,
        w,
    }) = waited
    else {
        return wait_row([(); 6].map(|()| "-".into()));
    };
    let demanded = Allowed::demanded(k, m).longest(w);
    let ratio = slots as f64 / allowed as f64;
    wait_row([
        slots.to_string(),
        allowed.to_string(),
        demanded.to_string(),
        format!("{ratio:.4}"),
        m.to_string(),
        w.to_string(),
    ])
}

fn wait_row(columns: [String; 6]) -> String {
    let columns = columns.iter().map(|column| format!(" {column:>8}"));
    columns.collect()
}

/// The same of queues that were fed as fast as they may be, with what their sources may be ahead by.
fn paced_waits(hits: &Hits) -> Vec<String> {
    let rows = (0..=10).filter_map(|k| {
        let waited = hits.nearest_wait(k, Queued::Paced)?;
        let Waited {
            slots,
            allowed,
            m,
            w,
        } = waited;
        let (ratio, ahead) = (slots as f64 / allowed as f64, w as f64 / f64::from(1 << k));
        Some(format!(
            "{k:>3} {slots:>8} {allowed:>8} {ratio:>8.4} {m:>8} {ahead:>8.3}"
        ))
    });
    let title =
        "longest waits in slots of queues fed as fast as they may be, nearest to what is allowed";
    let head = format!(
        "{:>3} {:>8} {:>8} {:>8} {:>8} {:>8}",
        "k", "wait", "allowed", "ratio", "m", "a"
    );
    table(title, head, rows)
}

/// The most odd counts that builds of 16 ports settled, beside their bound; nothing where there was no such build.
fn settled(hits: &Hits) -> Vec<String> {
    let rows = (1..=10).filter_map(|k| {
        let (seen, most) = (hits.most_settled(k)?, bound(16, k));
        let part = seen as f64 / most as f64;
        Some(format!("{k:>3} {seen:>9} {most:>9} {part:>9.4}"))
    });
    let title = "most odd counts settled at 16 ports";
    let head = format!("{:>3} {:>9} {:>9} {:>9}", "k", "seen", "16 2^k k", "part");
    table(title, head, rows)
}

/// Parts of 1/2^k of a cell in cells.
fn in_cells(parts: i128, k: u32) -> String {
    let cells = parts as f64 / f64::from(1 << k);
    format!("{cells:.3}")
}

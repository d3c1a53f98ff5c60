//! How the pages of `docs` write numbers and tables.

/// A number with a comma before its last three digits.
pub fn grouped(number: u64) -> String {
    match number {
        0..1_000 => number.to_string(),
        _ => format!("{},{:03}", number / 1_000, number % 1_000),
    }
}

/// So many parts of 1/2^k, to so many digits after the point; a half of the last digit goes to the even one.
pub fn decimal(parts: u64, k: u32, digits: usize) -> String {
    format!("{:.digits$}", parts as f64 / f64::from(1 << k))
}

/// A line of a table.
pub fn row(columns: &[String]) -> String {
    format!("| {} |", columns.join(" | "))
}

/// A table under its head line, which has a column for each bar but one.
pub fn table(head: String, rows: impl Iterator<Item = String>) -> Vec<String> {
    let rule = format!("{}|", "|---".repeat(head.matches('|').count() - 1));
    [head, rule].into_iter().chain(rows).collect()
}

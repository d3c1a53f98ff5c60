//! What a page of `docs` says, to be held to formulas.

/// The tables of the page, in their order.
pub fn tables(page: &str) -> Vec<Vec<&str>> {
    let lines: Vec<&str> = page.lines().collect();
    let tables = lines.split(|line| !line.starts_with('|'));
    tables
        .filter(|lines| !lines.is_empty())
        .map(<[&str]>::to_vec)
        .collect()
}

/// The running text of the page in one line, without tables and without lines that are set in.
pub fn running(page: &str) -> String {
    let lines = page.lines();
    let running = lines.filter(|line| !line.starts_with('|') && !line.starts_with("    "));
    running.map(str::trim).collect::<Vec<_>>().join(" ")
}

/// Fails unless the page says each of these in its running text, and has no number of two digits or more besides, but for those that
/// are left to other tests or are nothing to compute.
pub fn holds(page: &str, sentences: &[String], others: &[&str]) {
    let mut text = running(page);
    for sentence in sentences {
        assert!(text.contains(sentence), "missing: {sentence}");
        text = text.replace(sentence, " ");
    }
    let numbers = text.split(|c: char| !(c.is_alphanumeric() || "_.,/-".contains(c)));
    let numbers = numbers.map(|word| word.trim_matches(|c: char| !c.is_alphanumeric()));
    let left = numbers.filter(|word| {
        let digits = word.chars().filter(char::is_ascii_digit).count();
        digits > 1 && !others.contains(word)
    });
    let left: Vec<_> = left.collect();
    assert!(left.is_empty(), "not held: {left:?}");
}

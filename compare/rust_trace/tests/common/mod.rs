//! How the tests look at a trace.

/// What stands behind `head` in the lines that begin so.
pub fn lines_with<'a>(trace: &'a str, head: &'a str) -> impl Iterator<Item = &'a str> {
    trace
        .lines()
        .filter_map(move |line| line.strip_prefix(head))
}

/// The sum of all delays, in microseconds.
pub fn asked(trace: &str) -> u64 {
    lines_with(trace, "D ")
        .map(|us| us.parse::<u64>().unwrap())
        .sum()
}

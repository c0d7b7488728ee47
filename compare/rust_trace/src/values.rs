//! The values of an answer, where they are the same for every driver.

/// An answer without values.
pub fn none(_: ()) -> Vec<u64> {
    vec![]
}

pub fn one(value: impl Into<u64>) -> Vec<u64> {
    vec![value.into()]
}

/// A configuration: its quad numbers, then those of the caller's own device or geometry.
pub fn config(quad: Option<[u64; 4]>, own: Option<[u64; 4]>) -> Vec<u64> {
    [optional(quad), optional(own)].concat()
}

/// 0, or 1 and the four numbers.
fn optional(numbers: Option<[u64; 4]>) -> Vec<u64> {
    match numbers {
        Some(numbers) => [vec![1], numbers.into()].concat(),
        None => vec![0],
    }
}

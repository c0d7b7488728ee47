//! Many cases in one text: each begins with a line `# case K`, which is its first line.

const HEAD: &[u8] = b"# case ";

/// The cases of a text, each with its head line. What stands before the first head is no case.
pub fn cases(text: &[u8]) -> impl Iterator<Item = &[u8]> {
    let mut heads = head_places(text);
    let mut start = heads.next();
    std::iter::from_fn(move || {
        let from = start?;
        start = heads.next();
        Some(&text[from..start.unwrap_or(text.len())])
    })
}

/// The head line of a case, without its line feed.
pub fn head(case: &[u8]) -> &[u8] {
    case.split(|&byte| byte == b'\n').next().unwrap_or(case)
}

fn head_places(text: &[u8]) -> impl Iterator<Item = usize> {
    let mut place = 0;
    text.split_inclusive(|&byte| byte == b'\n')
        .filter_map(move |line| {
            let here = place;
            place += line.len();
            line.starts_with(HEAD).then_some(here)
        })
}

#[cfg(test)]
mod tests {
    use super::*;

    #[test]
    fn cases_are_cut_at_their_heads() {
        let text = b"junk\n# case 0\ncall id\n# note\n# case 1\n# case 2\n.";
        let cut: Vec<&[u8]> = cases(text).collect();
        let expected: [&[u8]; 3] = [
            b"# case 0\ncall id\n# note\n",
            b"# case 1\n",
            b"# case 2\n.",
        ];
        assert_eq!(cut, expected);
        assert_eq!(head(cut[2]), b"# case 2");
    }
}

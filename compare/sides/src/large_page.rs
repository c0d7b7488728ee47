//! The one difference that is wanted: a page above 4,096 is refused by the port once the part is identified, by the
//! Rust last of all.

/// The second line of a case that may show it.
const NOTE: &[u8] = b"# large page";
/// The end of an identification: the id has been read.
const IDENTIFIED: [&[u8]; 2] = [b"R 3", b"H"];
const REFUSED: &[u8] = b"E 11";
/// Ends that leave a call unfinished.
const UNFINISHED: [&[u8]; 2] = [b"E 14", b"E 16"];

/// Whether two traces of the case differ only so. Each construction that differs has the Rust's actions up to the
/// identification and then the refusal. Where the Rust's stays unfinished, what follows it there says nothing more.
pub fn is_wanted(case: &[u8], rust: &[u8], port: &[u8]) -> bool {
    if lines(case).get(1) != Some(&NOTE) {
        return false;
    }
    let (rust, port) = (lines(rust), lines(port));
    let mut others = calls(&port);
    for call in calls(&rust) {
        let Some(other) = others.next() else {
            return false;
        };
        if call == other {
            continue;
        }
        if !refused_early(call, other) {
            return false;
        }
        if call.iter().any(|line| UNFINISHED.contains(line)) {
            return true;
        }
    }
    others.next().is_none()
}

fn refused_early(rust: &[&[u8]], port: &[&[u8]]) -> bool {
    let Some((&REFUSED, actions)) = port.split_last() else {
        return false;
    };
    rust.starts_with(&[b"call new"]) && actions.ends_with(&IDENTIFIED) && rust.starts_with(actions)
}

fn lines(text: &[u8]) -> Vec<&[u8]> {
    let text = text.strip_suffix(b"\n").unwrap_or(text);
    text.split(|&byte| byte == b'\n').collect()
}

/// The lines of each call, and those before the first one.
fn calls<'a>(lines: &'a [&'a [u8]]) -> impl Iterator<Item = &'a [&'a [u8]]> {
    lines.chunk_by(|_, next| !next.starts_with(b"call "))
}

#[cfg(test)]
mod tests {
    use super::*;

    const CASE: &[u8] = b"# case 4\n# large page\ngeometry 4097 0 1 1\ncall new\n";
    const RUST: &[u8] =
        b"# case 4\ncall new\nH\nL\nW 9F 00\nR 3\nH\nL\nW 0F B0\nH\nE 11\ncall info\nE 13\n";

    #[test]
    fn a_refusal_at_the_identification_is_wanted() {
        let port = b"# case 4\ncall new\nH\nL\nW 9F 00\nR 3\nH\nE 11\ncall info\nE 13\n";
        assert!(is_wanted(CASE, RUST, port));
        assert!(!is_wanted(b"# case 4\ncall new\n", RUST, port));
    }

    #[test]
    fn any_other_difference_is_not() {
        for port in [
            &b"# case 4\ncall new\nH\nL\nW 9F 00\nR 3\nH\nE 11\ncall info\nE 0\n"[..],
            b"# case 4\ncall new\nH\nL\nW 9F 00\nR 3\nH\nE 11\n",
            b"# case 4\ncall new\nH\nE 11\ncall info\nE 13\n",
            b"# case 4\ncall new\nH\nL\nW 9F 00\nR 3\nH\nE 2\ncall info\nE 13\n",
        ] {
            assert!(!is_wanted(CASE, RUST, port));
        }
    }

    #[test]
    fn nothing_is_asked_behind_a_construction_that_stays_unfinished() {
        let rust =
            b"# case 4\ncall new\nH\nL\nW 9F 00\nR 3\nH\nL\nW 0F B0\nE 16\ncall new_single\nE 13\n";
        let port = b"# case 4\ncall new\nH\nL\nW 9F 00\nR 3\nH\nE 11\ncall new_single\nH\nE 0\n";
        assert!(is_wanted(CASE, rust, port));
    }
}

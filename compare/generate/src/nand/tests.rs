use std::collections::BTreeSet;

use case_text::{Item, Reply};

use super::family::registers;
use crate::rng::Rng;

/// The mask's bits in what the calls of this name read first, in cases with or without quad.
fn patterns(name: &str, quad: bool, mask: u8) -> BTreeSet<u8> {
    let cases = (0..100).map(|stream| registers(&mut Rng::new(1, stream)));
    let chosen = cases.filter(|items| matches!(items[0], Item::Quad(set) if set.is_some() == quad));
    chosen
        .flat_map(|items| first_bytes(&items, name))
        .map(|byte| byte & mask)
        .collect()
}

fn first_bytes(items: &[Item], name: &str) -> Vec<u8> {
    let first = items.windows(3).filter_map(|window| match window {
        [
            Item::Call(call),
            Item::Reply(Reply::Done),
            Item::Reply(Reply::Data(bytes)),
        ] => (call.name == name).then_some(bytes[0]),
        _ => None,
    });
    first.collect()
}

#[test]
fn registers_are_found_in_every_pattern() {
    for quad in [false, true] {
        assert_eq!(patterns("ensure_configuration", quad, 0x19).len(), 8);
        assert_eq!(patterns("unprotect", quad, 0x78).len(), 16);
        assert_eq!(patterns("disable_quad", quad, 0x19).len(), 8);
    }
}

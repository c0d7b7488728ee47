//! A case as text. A number may be written in either way, and lines may stand between that are passed over.

use std::fmt::Write;

use case_text::{Call, Item, Lent, Quad, Reply};

use crate::rng::Rng;

/// Writes the items, one a line.
pub fn text(items: &[Item], own_word: &str, rng: &mut Rng) -> String {
    let mut text = String::new();
    for item in items {
        if rng.percent(1) {
            text.push_str(rng.pick(&["\n", "# call id\n", "#\n"]));
        }
        line(&mut text, item, own_word, rng);
        text.push('\n');
    }
    text
}

fn line(text: &mut String, item: &Item, own_word: &str, rng: &mut Rng) {
    match item {
        Item::Quad(quad) => setting(text, "quad", quad.map(quad_numbers), rng),
        Item::Own(own) => setting(text, own_word, *own, rng),
        Item::Call(call) => call_line(text, call, rng),
        Item::Reply(Reply::Done) => text.push('.'),
        Item::Reply(Reply::Data(bytes)) => {
            text.push('=');
            hex(text, bytes, rng);
        }
        Item::Reply(Reply::Error(code)) => {
            text.push('!');
            number(text, (*code).into(), rng);
        }
        Item::Bad(_) => unreachable!("no bad line is written"),
    }
}

fn quad_numbers(quad: Quad) -> [u64; 4] {
    [
        quad.tclqv_ns.into(),
        quad.read_opcode.into(),
        quad.program_opcode.into(),
        quad.margin.into(),
    ]
}

fn setting(text: &mut String, word: &str, numbers: Option<[u64; 4]>, rng: &mut Rng) {
    text.push_str(word);
    match numbers {
        Some(numbers) => {
            for value in numbers {
                spaced_number(text, value, rng);
            }
        }
        None => text.push_str(" none"),
    }
}

fn call_line(text: &mut String, call: &Call, rng: &mut Rng) {
    text.push_str("call ");
    text.push_str(call.name);
    for &value in &call.numbers {
        spaced_number(text, value, rng);
    }
    match &call.lent {
        Lent::Nothing => {}
        Lent::Buffer(length) => spaced_number(text, *length as u64, rng),
        Lent::Data(bytes) => {
            text.push_str(" @");
            hex(text, bytes, rng);
        }
    }
}

fn spaced_number(text: &mut String, value: u64, rng: &mut Rng) {
    text.push(' ');
    number(text, value, rng);
}

fn number(text: &mut String, value: u64, rng: &mut Rng) {
    match rng.below(6) {
        0 => write!(text, "0x{value:x}"),
        1 | 2 => write!(text, "0x{value:X}"),
        _ => write!(text, "{value}"),
    }
    .expect("a string takes every write");
}

fn hex(text: &mut String, bytes: &[u8], rng: &mut Rng) {
    let digits = rng.pick(&[b"0123456789ABCDEF", b"0123456789abcdef"]);
    for &byte in bytes {
        text.push(char::from(digits[usize::from(byte >> 4)]));
        text.push(char::from(digits[usize::from(byte & 0xF)]));
    }
}

//! How the lines of a trace are written.

use std::fmt::Write;

const DIGITS: [u8; 16] = *b"0123456789ABCDEF";

/// `head`, then each byte as a word of its own.
pub fn bytes(log: &mut String, head: &str, bytes: &[u8]) {
    log.push_str(head);
    for &byte in bytes {
        log.push(' ');
        push_byte(log, byte);
    }
}

/// `head`, then all bytes as one word; no word when there are none.
pub fn solid(log: &mut String, head: &str, bytes: &[u8]) {
    log.push_str(head);
    if !bytes.is_empty() {
        log.push(' ');
    }
    for &byte in bytes {
        push_byte(log, byte);
    }
}

/// `head`, then each number in decimal.
pub fn numbers(log: &mut String, head: &str, numbers: &[u64]) {
    log.push_str(head);
    for number in numbers {
        write!(log, " {number}").expect("a string takes every write");
    }
}

fn push_byte(log: &mut String, byte: u8) {
    log.push(char::from(DIGITS[usize::from(byte >> 4)]));
    log.push(char::from(DIGITS[usize::from(byte & 0xF)]));
}

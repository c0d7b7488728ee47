//! The text of a case: settings, calls and their scripted replies, read line by line.
//!
//! What a driver's calls are named and what they take is the driver's dialect ([`Dialect`]); the rest is
//! the same for every driver.

mod dialect;
pub mod frame;
mod word;

pub use dialect::{Dialect, NAND, NOR, Shape, Takes, Width};

/// A longer text is not taken.
pub const MAX_TEXT: usize = 4 * 1024 * 1024;
/// A longer buffer is not lent: no NOR holds more, and no text has the replies to fill it.
pub const MAX_BUFFER: u64 = 16 * 1024 * 1024;

/// The quad setting: four numbers as the drivers take them.
#[derive(Clone, Copy, Debug, PartialEq, Eq)]
pub struct Quad {
    pub tclqv_ns: u32,
    pub read_opcode: u8,
    pub program_opcode: u8,
    pub margin: u8,
}

/// What a call lends beside its numbers.
#[derive(Clone, Debug, PartialEq, Eq)]
pub enum Lent {
    Nothing,
    Buffer(usize),
    Data(Vec<u8>),
}

/// A call as it is written.
#[derive(Clone, Debug, PartialEq, Eq)]
pub struct Call {
    pub name: &'static str,
    pub numbers: Vec<u64>,
    pub lent: Lent,
}

/// A reply to a bus action.
#[derive(Clone, Debug, PartialEq, Eq)]
pub enum Reply {
    Done,
    Data(Vec<u8>),
    Error(u8),
}

/// A line that is not passed over.
#[derive(Clone, Debug, PartialEq, Eq)]
pub enum Item {
    Quad(Option<Quad>),
    /// The caller's own device or geometry.
    Own(Option<[u64; 4]>),
    Call(Call),
    Reply(Reply),
    /// The line with this number follows no rule; nothing after it counts.
    Bad(usize),
}

/// Reads a whole text. The list ends with the first bad line, if there is one.
pub fn read(text: &[u8], dialect: &Dialect) -> Vec<Item> {
    let mut items = Vec::new();
    let mut end = 0;
    // A last line without a line feed counts too.
    for (index, ended) in text.split_inclusive(|&byte| byte == b'\n').enumerate() {
        end += ended.len();
        let line = ended.strip_suffix(b"\n").unwrap_or(ended);
        let fits = end <= MAX_TEXT;
        if fits && passed_over(line) {
            continue;
        }
        match item(line, &items, dialect) {
            Some(item) if fits => items.push(item),
            _ => {
                items.push(Item::Bad(index + 1));
                break;
            }
        }
    }
    items
}

fn passed_over(line: &[u8]) -> bool {
    line.is_empty() || (line[0] == b'#' && line.is_ascii())
}

fn item(line: &[u8], before: &[Item], dialect: &Dialect) -> Option<Item> {
    let line = str::from_utf8(line).ok()?;
    if line.starts_with(['.', '=', '!']) {
        return reply(line)
            .filter(|_| follows_a_call(before))
            .map(Item::Reply);
    }
    let words: Vec<&str> = line.split(' ').collect();
    match words[0] {
        "quad" => quad(&words[1..]).map(Item::Quad),
        "call" => call(&words[1..], dialect).map(Item::Call),
        word if word == dialect.own => own(&words[1..]).map(Item::Own),
        _ => None,
    }
}

/// Replies stand behind their call; a setting ends them.
fn follows_a_call(before: &[Item]) -> bool {
    matches!(before.last(), Some(Item::Call(_) | Item::Reply(_)))
}

fn reply(line: &str) -> Option<Reply> {
    match line.split_at(1) {
        (".", "") => Some(Reply::Done),
        ("=", hex) => word::bytes(hex).map(Reply::Data),
        ("!", code) => word::number(code)?.try_into().ok().map(Reply::Error),
        _ => None,
    }
}

fn quad(words: &[&str]) -> Option<Option<Quad>> {
    if words == ["none"] {
        return Some(None);
    }
    let [tclqv_ns, read_opcode, program_opcode, margin] = four(words)?;
    Some(Some(Quad {
        tclqv_ns: tclqv_ns.try_into().ok()?,
        read_opcode: read_opcode.try_into().ok()?,
        program_opcode: program_opcode.try_into().ok()?,
        margin: margin.try_into().ok()?,
    }))
}

fn own(words: &[&str]) -> Option<Option<[u64; 4]>> {
    if words == ["none"] {
        return Some(None);
    }
    four(words).map(Some)
}

fn four(words: &[&str]) -> Option<[u64; 4]> {
    let numbers: Option<Vec<u64>> = words.iter().map(|word| word::number(word)).collect();
    numbers?.try_into().ok()
}

fn call(words: &[&str], dialect: &Dialect) -> Option<Call> {
    let (name, words) = words.split_first()?;
    let shape = dialect.calls.iter().find(|shape| shape.name == *name)?;
    if words.len() != shape.words() {
        return None;
    }
    let numbers: Option<Vec<u64>> = shape
        .numbers
        .iter()
        .zip(words)
        .map(|(width, word)| word::number(word).filter(|&number| width.holds(number)))
        .collect();
    Some(Call {
        name: shape.name,
        numbers: numbers?,
        lent: lent(shape.takes, words.last().copied())?,
    })
}

fn lent(takes: Takes, last: Option<&str>) -> Option<Lent> {
    match takes {
        Takes::Nothing => Some(Lent::Nothing),
        Takes::Buffer => {
            let length = word::number(last?).filter(|&length| length <= MAX_BUFFER)?;
            Some(Lent::Buffer(length as usize))
        }
        Takes::Data => word::bytes(last?.strip_prefix('@')?).map(Lent::Data),
    }
}

#[cfg(test)]
mod tests;
